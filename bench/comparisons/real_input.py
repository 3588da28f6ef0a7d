#!/usr/bin/python3
"""Runs the built program over trace requests that a stock protobuf library wrote, and compares what they mean.

It is run at the top as bench/comparisons/real_input.py, after ./spanx has built the program. The files of a folder that is given
are taken too. What the program writes is read back with the stock parser, and must equal the input after this script's own normal
form; it must be the very bytes that the stock library writes of it, and be written again as it is. It prints a line for each
case, and ends with 1 on a difference.
"""
import os
import random
import subprocess
import sys
import tempfile

from google.protobuf import descriptor_pb2, descriptor_pool, message_factory

sys.path.insert(1, os.path.dirname(os.path.dirname(os.path.realpath(__file__))))
import rooms  # first: it finds the others
from otlp import DEEPEST
from program import BUILD, PROGRAM, TOP, convert
from wire import bytes_field, fixed32_field, fixed64_field, number_field, padded_varint, records

EXAMPLES = os.path.join(TOP, "examples")
sys.path.insert(0, EXAMPLES)
import write_checkout

PACKAGE = "opentelemetry.proto.collector.trace.v1."
SEEDS = 200


# ---- schemas


def schema():
    """The schema of the requests, as protoc describes it."""
    with tempfile.TemporaryDirectory() as folder:
        path = os.path.join(folder, "schema")
        subprocess.run(["protoc", f"--proto_path={EXAMPLES}", f"--descriptor_set_out={path}", "trace_service.proto"], check=True)
        with open(path, "rb") as file:
            return descriptor_pb2.FileDescriptorSet.FromString(file.read()).file[0]


def request_class(file):
    pool = descriptor_pool.DescriptorPool()
    pool.Add(file)
    return message_factory.MessageFactory(pool).GetPrototype(pool.FindMessageTypeByName(PACKAGE + "ExportTraceServiceRequest"))


def newer(file):
    """A later schema: each message has fields of every wire type more, among them one of its own kind."""
    out = descriptor_pb2.FileDescriptorProto()
    out.CopyFrom(file)
    kinds = descriptor_pb2.FieldDescriptorProto
    types = [kinds.TYPE_SINT64, kinds.TYPE_DOUBLE, kinds.TYPE_BYTES, kinds.TYPE_SFIXED32, kinds.TYPE_MESSAGE]

    def extend(message, name):
        for i, kind in enumerate(types):
            field = message.field.add(name=f"later_{i}", number=[17, 900, 20_000, 536_870_911, 33][i], type=kind, label=kinds.LABEL_REPEATED)
            if kind == kinds.TYPE_MESSAGE:
                field.type_name = name
            if kind in [kinds.TYPE_SINT64, kinds.TYPE_DOUBLE, kinds.TYPE_SFIXED32]:
                field.options.packed = False
        for inner in message.nested_type:
            extend(inner, f"{name}.{inner.name}")

    for message in out.message_type:
        extend(message, f".{PACKAGE}{message.name}")
    return out


# ---- the normal form


def submessages(message):
    """The messages that stand directly in a message."""
    for field, held in message.ListFields():
        if field.message_type is not None:
            yield from held if field.label == field.LABEL_REPEATED else [held]


def normalise_attributes(pairs):
    """Sorted by the bytes of the key, with the last of equal keys."""
    last = {}
    for pair in pairs:
        last[pair.key.encode()] = pair.SerializeToString(deterministic=True)
    del pairs[:]
    for key in sorted(last):
        pairs.add().ParseFromString(last[key])


def is_zero(identifier):
    return not any(identifier)


def normalise(message):
    """Brings a message, from its innermost parts on, into the form in which it must be written."""
    for inner in submessages(message):
        normalise(inner)
    name = message.DESCRIPTOR.name
    if name in ["Resource", "InstrumentationScope", "Span", "Event", "Link"]:
        normalise_attributes(message.attributes)
    if name == "KeyValueList":
        normalise_attributes(message.values)
    if name == "Span":
        kept = [link.SerializeToString(deterministic=True) for link in message.links if not is_zero(link.trace_id) and not is_zero(link.span_id)]
        del message.links[:]
        for link in kept:
            message.links.add().ParseFromString(link)
        if is_zero(message.parent_span_id):
            message.ClearField("parent_span_id")
    optional = {"ResourceSpans": "resource", "ScopeSpans": "scope", "Span": "status", "KeyValue": "value"}.get(name)
    if optional and message.HasField(optional) and getattr(message, optional).ByteSize() == 0:
        message.ClearField(optional)


def normal(request, text):
    """The bytes that the stock library writes of a request's normal form."""
    message = request.FromString(text)
    message.DiscardUnknownFields()
    normalise(message)
    return message.SerializeToString(deterministic=True)


# ---- random requests


class Maker:
    """Makes random requests of a message class. Each choice comes from the seed."""

    def __init__(self, request, seed, plain):
        self.request = request
        self.random = random.Random(seed)
        # Whether nothing has to go: no repeated key, no link without identifier, no parent of zeros.
        self.plain = plain

    def chance(self, part):
        return self.random.random() < part

    def some(self, most):
        return self.random.choice([0, 1, 1, 2, most])

    def text(self):
        alphabet = self.random.choice(["ab", "aéЖ€😀", "k.\0\n\"\\", "xyz_-/09"])
        length = self.random.choice([0, 1, 3, 9, 40, 200])
        return "".join(self.random.choice(alphabet) for _ in range(length))

    def bytes(self):
        return self.random.randbytes(self.random.choice([0, 1, 5, 127, 128, 300]))

    def number(self, bits):
        edge = self.random.choice([0, 1, 127, 128, 2**14, 2**31 - 1, 2**31, 2**32 - 1, 2**63 - 1, 2**63, 2**64 - 1])
        return (edge if self.chance(0.6) else self.random.getrandbits(64)) % 2**bits

    def identifier(self, size):
        return self.random.choice([b"\0" * (size - 1) + b"\1", b"\xff" * size, b"\1" + self.random.randbytes(size - 1)])

    def no_identifier(self, size):
        return self.random.choice([b"", b"\0" * size])

    def value(self, made, level):
        kinds = ["string", "truth", "number", "double", "bytes", "nothing", "absent", "list", "map"]
        kind = self.random.choice(kinds)
        if kind == "string":
            made.string_value = self.text()
        elif kind == "truth":
            made.bool_value = self.chance(0.5)
        elif kind == "number":
            made.int_value = self.number(64) - 2**63
        elif kind == "double":
            made.double_value = self.random.choice([0.0, -0.0, 1.5, float("inf"), float("nan"), -2.0**-1074])
        elif kind == "bytes":
            made.bytes_value = self.bytes()
        elif kind == "nothing":
            made.SetInParent()
        elif kind == "list":
            made.array_value.SetInParent()
            for _ in range(self.some(4) if level < DEEPEST else 0):
                self.value(made.array_value.values.add(), level + 1)
        elif kind == "map":
            made.kvlist_value.SetInParent()
            if level < DEEPEST:
                self.attributes(made.kvlist_value.values, level + 1)

    def attributes(self, pairs, level=1):
        used = set()
        for _ in range(self.some(6)):
            key = self.random.choice(["a", "b", "", "a.b", "é", "\U00010000", "\uffff", self.text()])
            if self.plain and key in used:
                continue
            used.add(key)
            pair = pairs.add(key=key)
            self.value(pair.value, level)

    def link(self, made):
        made.trace_id, made.span_id = self.identifier(16), self.identifier(8)
        if not self.plain and self.chance(0.3):
            made.trace_id = self.no_identifier(16)
        if not self.plain and self.chance(0.3):
            made.span_id = self.no_identifier(8)
        made.trace_state, made.dropped_attributes_count, made.flags = self.text(), self.number(32), self.number(32)
        self.attributes(made.attributes)

    def event(self, made):
        made.time_unix_nano, made.name, made.dropped_attributes_count = self.number(64), self.text(), self.number(32)
        self.attributes(made.attributes)

    def span(self, made):
        made.trace_id, made.span_id = self.identifier(16), self.identifier(8)
        made.parent_span_id = self.random.choice([b"", self.identifier(8), b"" if self.plain else self.no_identifier(8)])
        made.trace_state, made.name, made.kind = self.text(), self.text(), self.random.randrange(6)
        made.start_time_unix_nano, made.end_time_unix_nano, made.flags = self.number(64), self.number(64), self.number(32)
        made.dropped_attributes_count, made.dropped_events_count, made.dropped_links_count = (self.number(32) for _ in range(3))
        self.attributes(made.attributes)
        for _ in range(self.some(3)):
            self.event(made.events.add())
        for _ in range(self.some(3)):
            self.link(made.links.add())
        if self.chance(0.7):
            made.status.SetInParent()
            made.status.message, made.status.code = self.text(), self.random.randrange(3)

    def scope(self, made):
        made.schema_url = self.text()
        if self.chance(0.7):
            made.scope.SetInParent()
        if self.chance(0.6):
            made.scope.name, made.scope.version, made.scope.dropped_attributes_count = self.text(), self.text(), self.number(32)
            self.attributes(made.scope.attributes)
        for _ in range(self.some(4)):
            self.span(made.spans.add())

    def group(self, made):
        made.schema_url = self.text()
        if self.chance(0.7):
            made.resource.SetInParent()
        if self.chance(0.6):
            made.resource.dropped_attributes_count = self.number(32)
            self.attributes(made.resource.attributes)
        for _ in range(self.some(3)):
            self.scope(made.scope_spans.add())

    def make(self):
        made = self.request()
        for _ in range(self.some(3)):
            self.group(made.resource_spans.add())
        return made

    def add_later(self, message):
        """Sets the fields that only the newer schema has, in a message and all in it."""
        inner = list(submessages(message))
        for _ in range(self.some(2)):
            message.later_0.append(self.number(64) - 2**63)
            message.later_1.append(2.5)
            message.later_2.append(self.bytes())
            message.later_3.append(self.number(31))
            message.later_4.add()
        for other in inner:
            self.add_later(other)


# ---- the same requests, spelled by hand in other ways


class Spelling:
    """Rewrites the bytes of a message, and of those in it: `order` gives its records in another order, `size` is the
    least length of each varint, and `front` and `behind` give bytes to put around its records. Keys and lengths have five bytes
    at most, since the stock parser refuses longer spellings of them."""

    def __init__(self, order=list, size=1, front=lambda descriptor: b"", behind=lambda descriptor: b""):
        self.order = order
        self.size = size
        self.front = front
        self.behind = behind

    def varint(self, n, most=10):
        shortest = max(1, -(-n.bit_length() // 7))
        return padded_varint(n, max(min(self.size, most), shortest))

    def write(self, descriptor, text):
        out = self.front(descriptor)
        for number, wire, held in self.order(records(text)):
            field = descriptor.fields_by_number.get(number)
            out += self.varint(number * 8 + wire, most=5)
            if wire == 0:
                out += self.varint(held)
            elif wire == 2:
                if field is not None and field.message_type is not None:
                    held = self.write(field.message_type, held)
                out += self.varint(len(held), most=5) + held
            else:
                out += held
        return out + self.behind(descriptor)


def falling(held):
    """From the highest number to the lowest; the records of one number keep their order."""
    return sorted(held, key=lambda record: -record[0])


def mixed(seed):
    """The records of one number keep their order, all else is drawn."""
    drawn = random.Random(seed)

    def order(held):
        numbers = [record[0] for record in held]
        drawn.shuffle(numbers)
        waiting = {number: iter([record for record in held if record[0] == number]) for number in numbers}
        return [next(waiting[number]) for number in numbers]

    return order


def unknown_fields(descriptor):
    """Unknown numbers with every wire type."""
    return (
        number_field(100, 2**64 - 1) + fixed64_field(101, 7) + bytes_field(102, b"\x0a\xff\xff") + fixed32_field(103, 9)
        + bytes_field(536_870_911, b"") + number_field(19, 0)
    )


def other_wire_types(descriptor):
    """Every known number with each wire type that isn't its own."""
    out = b""
    for number, field in sorted(descriptor.fields_by_number.items()):
        own = {field.TYPE_FIXED64: 1, field.TYPE_DOUBLE: 1, field.TYPE_FIXED32: 5}.get(field.type)
        if own is None:
            own = 2 if field.type in [field.TYPE_STRING, field.TYPE_BYTES, field.TYPE_MESSAGE] else 0
        spelled = {0: number_field(number, 300), 1: fixed64_field(number, 5), 2: bytes_field(number, b"\xff\0"), 5: fixed32_field(number, 6)}
        out += b"".join(text for wire, text in spelled.items() if wire != own)
    return out


# ---- cases


def checkout(request):
    return request.FromString(write_checkout.request(write_checkout.messages()).SerializeToString()).SerializeToString()


def all_set_but_empty(request):
    made = request()
    made.resource_spans.add()
    group = made.resource_spans.add()
    group.resource.SetInParent()
    group.scope_spans.add()
    scope = group.scope_spans.add()
    scope.scope.SetInParent()
    span = scope.spans.add(trace_id=b"\1" * 16, span_id=b"\2" * 8, parent_span_id=b"\0" * 8)
    span.status.SetInParent()
    span.events.add()
    span.links.add()
    for key in ["empty list", "empty map", "nothing", "no value"]:
        span.attributes.add(key=key)
    span.attributes[0].value.array_value.SetInParent()
    span.attributes[1].value.kvlist_value.SetInParent()
    span.attributes[2].value.SetInParent()
    span.attributes.add().value.string_value = ""
    return made.SerializeToString()


def repeated_keys(request):
    made = request()
    group = made.resource_spans.add()
    scope = group.scope_spans.add()
    span = scope.spans.add(trace_id=b"\1" * 16, span_id=b"\2" * 8)
    event, link = span.events.add(), span.links.add(trace_id=b"\3" * 16, span_id=b"\4" * 8)
    for pairs in [group.resource.attributes, scope.scope.attributes, span.attributes, event.attributes, link.attributes]:
        for i, key in enumerate(["z", "a", "z", "", "a", "", "m", "z"]):
            pairs.add(key=key).value.int_value = i
        inner = pairs.add(key="map").value.kvlist_value
        for i, key in enumerate(["y", "x", "y", "x"]):
            deepest = inner.values.add(key=key).value.array_value.values.add().kvlist_value
            for j, deep_key in enumerate(["q", "p", "q"]):
                deepest.values.add(key=deep_key).value.int_value = 10 * i + j
    return made.SerializeToString()


def deepest_values(request):
    made = request()
    span = made.resource_spans.add().scope_spans.add().spans.add(trace_id=b"\1" * 16, span_id=b"\2" * 8)
    for last in [lambda value: value.array_value.SetInParent(), lambda value: value.kvlist_value.SetInParent(), lambda value: None]:
        for first in [0, 1]:
            value = span.attributes.add(key=f"{first}{len(span.attributes)}").value
            for level in range(DEEPEST - 1):
                if level % 2 == first:
                    value = value.array_value.values.add()
                else:
                    value = value.kvlist_value.values.add(key="k").value
            last(value)
    return made.SerializeToString()


def odd_numbers(request):
    """Counts of more than 32 bits, of which the low 32 count, and truth values of other numbers than 1."""
    value = bytes_field(2, number_field(2, 2))
    big = bytes_field(2, number_field(2, 2**63))
    span = bytes_field(1, b"\1" * 16) + bytes_field(2, b"\2" * 8) + bytes_field(9, value) + bytes_field(9, bytes_field(1, b"k") + big)
    span += number_field(10, 2**32 + 5) + number_field(12, 2**64 - 1) + number_field(14, 2**32)
    span += bytes_field(11, number_field(4, 2**63)) + bytes_field(15, b"")
    return bytes_field(1, bytes_field(1, number_field(2, 2**33 + 1)) + bytes_field(2, bytes_field(2, span)))


def cases(request, later, folder):
    """The name and the bytes of each case."""
    for name in sorted(os.listdir(folder)) if folder else []:
        path = os.path.join(folder, name)
        if os.path.isfile(path):
            with open(path, "rb") as file:
                yield f"file {name}", file.read()
    with open(os.path.join(EXAMPLES, "checkout.bin"), "rb") as file:
        example = file.read()
    made = checkout(request)
    yield "empty input", b""
    yield "checkout, as it lies in examples", example
    yield "checkout, made anew", made
    yield "set but empty", all_set_but_empty(request)
    yield "repeated keys", repeated_keys(request)
    yield f"values {DEEPEST} deep", deepest_values(request)
    yield "counts above 32 bits and odd truth values", odd_numbers(request)
    yield "two requests, one after the other", made + repeated_keys(request)
    spellings = {
        "fields in falling order": Spelling(order=falling),
        "fields mixed": Spelling(order=mixed(5)),
        "varints of two bytes": Spelling(size=2),
        "varints of ten bytes, in falling order": Spelling(order=falling, size=10),
        "unknown fields behind": Spelling(behind=unknown_fields),
        "unknown fields in front": Spelling(front=unknown_fields),
        "known numbers of other wire types": Spelling(order=mixed(6), front=other_wire_types, behind=other_wire_types),
    }
    for name, spelling in spellings.items():
        yield f"checkout, {name}", spelling.write(request.DESCRIPTOR, made)
    for seed in range(SEEDS):
        maker = Maker(later, seed, plain=seed % 4 == 0)
        drawn = maker.make()
        text = drawn.SerializeToString()
        yield f"random {seed}", text
        name = list(spellings)[seed % len(spellings)]
        yield f"random {seed}, {name}", spellings[name].write(request.DESCRIPTOR, text)
        maker.add_later(drawn)
        newer_text = drawn.SerializeToString()
        yield f"random {seed}, of a newer schema", newer_text
        yield f"random {seed}, of a newer schema, through an older one", request.FromString(newer_text).SerializeToString()


def difference(request, text):
    """What is wrong with the program's answer to an input, if something is."""
    wanted = normal(request, text)
    status, written, note = convert(text)
    if status != 0 or note != "":
        return f"status {status}, note {note!r}", wanted, written
    try:
        meant = request.FromString(written)
    except Exception as error:
        return f"the stock parser refuses what was written: {error}", wanted, written
    if meant.SerializeToString(deterministic=True) != wanted:
        return "another meaning was written", wanted, written
    if written != wanted:
        return "the same meaning in other bytes was written", wanted, written
    if convert(written) != (0, written, ""):
        return "what was written is not written again as it is", wanted, written
    return None, wanted, written


def report(name, text, what, wanted, written):
    """Prints a case that went wrong, and keeps its bytes."""
    folder = tempfile.mkdtemp(prefix="spanx-real-input-")
    for part, held in [("input", text), ("wanted", wanted), ("written", written)]:
        with open(os.path.join(folder, part), "wb") as file:
            file.write(held)
    print(f"WRONG: {name}: {what}; see {folder}")


def main():
    if not os.path.exists(PROGRAM):
        sys.exit(BUILD)
    file = schema()
    request, later = request_class(file), request_class(newer(file))
    wrong = 0
    for name, text in cases(request, later, sys.argv[1] if len(sys.argv) > 1 else None):
        what, wanted, written = difference(request, text)
        if what is None:
            print(f"ok: {name}: {len(text)} bytes in, {len(written)} out")
        else:
            report(name, text, what, wanted, written)
            wrong += 1
    print(f"{wrong} differences")
    sys.exit(1 if wrong else 0)


if __name__ == "__main__":
    main()
