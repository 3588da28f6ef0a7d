# Posts two spans with Jaeger's client in Ruby to the URL that is given. It needs Debian's ruby-jaeger-client.
require 'jaeger/client'

encoder = Jaeger::Encoders::ThriftEncoder.new(service_name: 'shop', tags: { 'region' => 'eu' }, logger: Logger.new($stderr))
sender = Jaeger::HttpSender.new(url: ARGV[0], encoder: encoder, logger: Logger.new($stderr))
reporter = Jaeger::Reporters::RemoteReporter.new(sender: sender, flush_interval: 1)
tracer = Jaeger::Client.build(service_name: 'shop', reporter: reporter, sampler: Jaeger::Samplers::Const.new(true))
tracer.start_active_span('GET /cart') do |root|
  root.span.set_tag('http.status_code', 200)
  tracer.start_active_span('SELECT') { |child| child.span.log_kv(event: 'retry', attempt: 1) }
end
reporter.flush
