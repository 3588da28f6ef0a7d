# Sends spans with Jaeger's client in Ruby to the port of this machine that is given: two as the client does it by itself, two of
# which one has a double, so many that they take several datagrams, two in Thrift's binary protocol, and at last Zipkin's call
# with no spans, which isn't for this agent. It needs Debian's ruby-jaeger-client.
require 'jaeger/client'

port = ARGV[0].to_i
logger = Logger.new($stderr)

# A trace of so many spans below the first, which has these tags.
def trace(tracer, children, tags)
  tracer.start_active_span('GET /cart', tags: { 'http.status_code' => 200, 'cached' => false }.merge(tags)) do
    children.times do |number|
      tracer.start_active_span("render #{number}") { |child| child.span.log_kv(event: 'retry', attempt: number) }
    end
  end
end

# The spans of a trace, which are sent together.
def spans_of(children, tags)
  reporter = Jaeger::Reporters::InMemoryReporter.new
  trace(Jaeger::Client.build(service_name: 'bücher', reporter: reporter), children, tags)
  reporter.spans
end

trace(Jaeger::Client.build(service_name: 'bücher', host: '127.0.0.1', port: port, flush_interval: 0.2, logger: logger), 1, {})
sleep 1
encoder = Jaeger::Encoders::ThriftEncoder.new(service_name: 'bücher', tags: { 'region' => 'eu' }, logger: logger)
sender = Jaeger::UdpSender.new(host: '127.0.0.1', port: port, encoder: encoder, logger: logger)
# A double keeps a batch from forms in which it would be a text.
sender.send_spans(spans_of(1, { 'share' => 0.25 }))
sender.send_spans(spans_of(1000, {}))

# The same messages in the binary protocol.
transport = Jaeger::UdpSender::Transport.new('127.0.0.1', port, logger: logger)
client = Jaeger::Thrift::Agent::Client.new(Thrift::BinaryProtocol.new(transport))
client.emitBatch(encoder.encode(spans_of(1, {})))
client.emitZipkinBatch([])
