#!/usr/bin/python3
"""Writes examples/checkout.bin with a stock protobuf library: one checkout trace over two services.

It needs Debian's python3-protobuf and protobuf-compiler, and is run as examples/write_checkout.py at the top.
"""
import os
import subprocess
import sys
import tempfile

HERE = os.path.dirname(os.path.abspath(__file__))
TRACE = bytes.fromhex("5b8efff798038103d269b633813fc60c")
BEGIN = 1_700_000_000_000_000_000
SCHEMA = "https://opentelemetry.io/schemas/1.27.0"
STATE = "rojo=00f067aa0ba902b7,congo=t61rcWkgMzE"
SAMPLED, REMOTE = 0x101, 0x301
SPAN_IDS = [
    "eee19b7ec3c1b174", "00f067aa0ba902b7", "b7ad6b7169203331", "5fb397be34d26b51", "93564f51e1abe1c2",
    "1a2b3c4d5e6f7081", "c2d1e0f9a8b7c6d5", "0000000000000a01", "7c1f0e2d3b4a5968", "f00dfeed00c0ffee",
]


def messages():
    """The message classes that protoc makes of the schema."""
    with tempfile.TemporaryDirectory() as folder:
        subprocess.run(["protoc", f"--proto_path={HERE}", f"--python_out={folder}", "trace_service.proto"], check=True)
        sys.path.insert(0, folder)
        import trace_service_pb2
        sys.path.remove(folder)
    return trace_service_pb2


class Empty:
    """Stands for a value that isn't set."""


def set_value(made, value):
    """Sets the member of an AnyValue by the type of a value of Python; Empty sets none."""
    if isinstance(value, bool):
        made.bool_value = value
    elif isinstance(value, int):
        made.int_value = value
    elif isinstance(value, str):
        made.string_value = value
    elif isinstance(value, bytes):
        made.bytes_value = value
    elif isinstance(value, list):
        made.array_value.SetInParent()
        for element in value:
            set_value(made.array_value.values.add(), element)
    elif isinstance(value, dict):
        made.kvlist_value.SetInParent()
        add_attributes(made.kvlist_value.values, value)
    elif value is not Empty:
        raise TypeError(f"no kind of value: {value!r}")


def add_attributes(pairs, attributes):
    for key, value in attributes.items():
        pair = pairs.add(key=key)
        pair.value.SetInParent()
        set_value(pair.value, value)


def add_group(made, resource, dropped=0):
    group = made.resource_spans.add(schema_url=SCHEMA)
    add_attributes(group.resource.attributes, resource)
    group.resource.dropped_attributes_count = dropped
    return group


def add_scope(group, name, version, attributes={}, schema_url=""):
    scope = group.scope_spans.add(schema_url=schema_url)
    scope.scope.name = name
    scope.scope.version = version
    add_attributes(scope.scope.attributes, attributes)
    return scope


def span_id(number):
    return bytes.fromhex(SPAN_IDS[number - 1])


def add_span(scope, number, name, kind, start, end, attributes, parent=None, flags=SAMPLED):
    """A span whose times are microseconds from the trace's begin."""
    span = scope.spans.add(trace_id=TRACE, span_id=span_id(number), name=name, kind=kind, flags=flags, trace_state=STATE)
    if parent is not None:
        span.parent_span_id = span_id(parent)
    span.start_time_unix_nano = BEGIN + start * 1000 + 241
    span.end_time_unix_nano = BEGIN + end * 1000 + 907
    add_attributes(span.attributes, attributes)
    return span


def add_event(span, at, name, attributes, dropped=0):
    event = span.events.add(time_unix_nano=BEGIN + at * 1000, name=name, dropped_attributes_count=dropped)
    add_attributes(event.attributes, attributes)


def sdk(language):
    return {"telemetry.sdk.name": "opentelemetry", "telemetry.sdk.language": language, "telemetry.sdk.version": "1.42.1"}


def add_storefront(pb, made):
    group = add_group(made, {
        "service.name": "storefront",
        "service.version": "2.8.1",
        "host.name": "web-7",
        "process.pid": 4127,
        "process.command_args": ["node", "--enable-source-maps", "server.js"],
        **sdk("nodejs"),
    }, dropped=1)
    add_requests(pb, add_scope(group, "@opentelemetry/instrumentation-http", "0.57.0", schema_url=SCHEMA))
    add_basket(pb, add_scope(group, "shop.checkout", "1.4.0", {"team": "basket", "experimental": True}))


def add_requests(pb, scope):
    root = add_span(scope, 1, "POST /checkout", pb.Span.SPAN_KIND_SERVER, 0, 912_400, {
        "http.request.method": "POST",
        "url.path": "/checkout",
        "url.scheme": "https",
        "http.route": "/checkout",
        "http.response.status_code": 402,
        "network.peer.address": "203.0.113.9",
        "user_agent.original": "Mozilla/5.0 (X11; Linux x86_64; rv:128.0)",
        "http.request.header.accept-language": ["de-DE", "de;q=0.8", "en;q=0.5"],
    })
    root.status.code = pb.Status.STATUS_CODE_ERROR
    root.status.message = "payment declined"
    add_event(root, 120, "request.body.read", {"http.request.body.size": 713, "compressed": False})
    pay = add_span(scope, 2, "POST", pb.Span.SPAN_KIND_CLIENT, 201_050, 880_310, {
        "http.request.method": "POST",
        "server.address": "payments.internal",
        "server.port": 8443,
        "http.response.status_code": 402,
        "error.type": "402",
    }, parent=1)
    pay.status.code = pb.Status.STATUS_CODE_ERROR


def add_basket(pb, scope):
    check = add_span(scope, 3, "Warenkorb prüfen €", pb.Span.SPAN_KIND_INTERNAL, 1_200, 40_900, {
        "basket.items": 3,
        "basket.total_cents": 12_999,
        "basket.discount_cents": -1_500,
        "basket.voucher": "",
        "basket.positions": [{"sku": "A-100", "count": 2}, {"sku": "ü-7", "count": 1, "gift": True}],
        "customer": {"tier": "gold", "consent": {"email": True, "phone": False, "asked": Empty}, "notes": []},
        "session.digest": bytes.fromhex("00ff10ab7f80"),
    }, parent=1)
    check.status.code = pb.Status.STATUS_CODE_OK
    check.dropped_attributes_count = 2
    reserve = add_span(scope, 4, "reserve stock", pb.Span.SPAN_KIND_CLIENT, 41_000, 198_777, {
        "rpc.system": "grpc",
        "rpc.service": "Stock",
        "rpc.method": "Reserve",
        "rpc.grpc.status_code": 0,
        "stock.shelves": [7, -1, [12, 13], Empty, "overflow"],
    }, parent=1)
    add_event(reserve, 90_000, "retry", {"attempt": 1, "delay_ms": 50})
    add_event(reserve, 140_500, "retry", {"attempt": 2, "delay_ms": 100})
    reserve.dropped_events_count = 4
    publish = add_span(scope, 5, "orders publish", pb.Span.SPAN_KIND_PRODUCER, 881_000, 884_020, {
        "messaging.system": "kafka",
        "messaging.destination.name": "orders",
        "messaging.kafka.offset": 9_007_199_254_740_993,
        "messaging.kafka.message.tombstone": False,
    }, parent=1)
    publish.dropped_links_count = 1


def add_payments(pb, made):
    group = add_group(made, {
        "service.name": "payments",
        "service.instance.id": "pay-2:8443",
        "host.name": "pay-2",
        "process.pid": 71,
        "container.id": "",
        **sdk("java"),
    })
    server = add_scope(group, "io.opentelemetry.netty-4.1", "2.9.0-alpha")
    charge = add_span(server, 6, "POST /charges/{id}", pb.Span.SPAN_KIND_SERVER, 203_400, 878_900, {
        "http.request.method": "POST",
        "http.route": "/charges/{id}",
        "http.response.status_code": 402,
        "thread.id": 31,
        "thread.name": "netty-worker-3",
    }, parent=2, flags=REMOTE)
    charge.status.SetInParent()
    add_scope(group, "io.opentelemetry.runtime-telemetry", "2.9.0")
    database = add_scope(group, "io.opentelemetry.jdbc", "2.9.0", schema_url=SCHEMA)
    add_span(database, 7, "SELECT cards", pb.Span.SPAN_KIND_CLIENT, 204_000, 209_150, {
        "db.system": "postgresql",
        "db.namespace": "payments",
        "db.query.text": "SELECT id, token FROM cards WHERE customer = ?",
        "db.response.returned_rows": 1,
    }, parent=6)
    add_risk(pb, add_scope(group, "payments.risk", ""))


def add_risk(pb, scope):
    score = add_span(scope, 8, "score risk", pb.Span.SPAN_KIND_INTERNAL, 209_300, 630_000, {
        "risk.model": "r12",
        "risk.score": -42,
        "risk.inputs": Empty,
        "risk.features": {"amount": {"bucket": 4}, "velocity": [1, 1, 2], "raw": b""},
    }, parent=6)
    score.status.code = pb.Status.STATUS_CODE_ERROR
    score.status.message = "limit exceeded: 129,99 € > 100,00 €"
    add_event(score, 629_480, "exception", {
        "exception.type": "com.shop.payments.LimitExceeded",
        "exception.message": "limit exceeded",
        "exception.stacktrace":
            "com.shop.payments.LimitExceeded: limit exceeded\n\tat com.shop.payments.Risk.score(Risk.java:88)\n",
        "exception.escaped": True,
    }, dropped=1)
    consume = add_span(scope, 9, "orders process", pb.Span.SPAN_KIND_CONSUMER, 890_000, 911_000, {
        "messaging.system": "kafka",
        "messaging.destination.name": "orders",
        "messaging.kafka.message.key": bytes.fromhex("c3a9"),
    }, parent=1, flags=REMOTE)
    link = consume.links.add(trace_id=TRACE, span_id=span_id(5), trace_state=STATE, flags=SAMPLED)
    add_attributes(link.attributes, {"messaging.batch.position": 0, "messaging.redelivered": False})
    other = bytes.fromhex("0af7651916cd43dd8448eb211c80319c")
    batch = consume.links.add(trace_id=other, span_id=bytes.fromhex("d1b54a32d192ed03"))
    batch.dropped_attributes_count = 3
    add_span(scope, 10, "", pb.Span.SPAN_KIND_UNSPECIFIED, 640_000, 640_000, {}, parent=8, flags=0)


def request(pb):
    made = pb.ExportTraceServiceRequest()
    add_storefront(pb, made)
    add_payments(pb, made)
    return made


if __name__ == "__main__":
    with open(os.path.join(HERE, "checkout.bin"), "wb") as out:
        out.write(request(messages()).SerializeToString(deterministic=True))
