# Writes trace contexts as headers with Jaeger's client in Ruby, and reads them. Standard input is a JSON list of tasks: a
# client with a context gives the headers that it writes, and one with headers the context that it reads, or null.
#
# It needs Debian's ruby-jaeger-client.
require 'json'
require 'jaeger/client'

# Of each client what writes and what reads, and whether headers are read as Rack names them.
CLIENTS = {
  'jaeger text map' => [Jaeger::Injectors::JaegerTextMapCodec, Jaeger::Extractors::JaegerTextMapCodec, false],
  'jaeger rack' => [Jaeger::Injectors::JaegerRackCodec, Jaeger::Extractors::JaegerRackCodec, true],
  'jaeger b3' => [Jaeger::Injectors::B3RackCodec, Jaeger::Extractors::B3RackCodec, true],
  'jaeger w3c' => [Jaeger::Injectors::TraceContextRackCodec, Jaeger::Extractors::TraceContextRackCodec, true]
}.freeze
FLAGS = { 'absent' => 0, 'no' => 0, 'yes' => 1, 'debug' => 2, 'sampled debug' => 3 }.freeze

def write(injector, told)
  context = Jaeger::SpanContext.new(
    trace_id: told['trace'].to_i(16), span_id: told['span'].to_i(16), parent_id: told['parent'].to_i(16),
    flags: FLAGS.fetch(told['sampling'])
  )
  headers = {}
  injector.inject(context, headers)
  headers.to_a
end

def sampling(flags)
  return 'absent' unless flags
  return 'debug' if flags & 2 == 2

  flags & 1 == 1 ? 'yes' : 'no'
end

def read(extractor, is_rack, headers)
  carrier = headers.to_h { |name, value| [is_rack ? "HTTP_#{name.upcase.tr('-', '_')}" : name, value] }
  context = extractor.extract(carrier)
  return nil unless context

  digits = ->(id, count) { id.to_i.zero? ? '' : id.to_s(16).rjust(count, '0') }
  {
    trace: digits.call(context.trace_id, 32), span: digits.call(context.span_id, 16), parent: digits.call(context.parent_id, 16),
    sampling: sampling(context.flags), state: ''
  }
end

answers = JSON.parse($stdin.read).map do |task|
  injector, extractor, is_rack = CLIENTS.fetch(task['client'])
  task['context'] ? write(injector, task['context']) : read(extractor, is_rack, task['headers'])
end
puts JSON.generate(answers)
