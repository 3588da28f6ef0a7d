"""Draws random Zipkin documents, and traces that Zipkin can hold or can't, for the scripts that compare the program with
zipkin.py."""
import json
import os
import sys

sys.path.insert(1, os.path.dirname(os.path.dirname(os.path.realpath(__file__))))
import rooms  # first: it finds the others
import jaeger
import zipkin
from drawn import KEYS, Drawn, Traces
from otlp import DEEPEST
from spelled_json import Members, Raw, Speller, TreeSpoiler
from zipkin import FLAGS, LAST_MICROS, MEMBERS, RESERVED, RESOURCE

OWN = [*FLAGS, *MEMBERS]
# Texts that stand behind an event's name and its colon: with attributes, and with what no event has.
EVENT_ENDS = [
    '{"b":1}', '{"b":null,"c":[{}]}', ' { "b" : -9223372036854775808 }\n', '{"b":9223372036854775807,"b":"\\ud83d\\ude00"}',
    '{"b":{"c":true}},"a":{"x":[]}',
]
NO_EVENT_ENDS = [
    "{}", "1", "[1]", '{"b":1.0}', '{"b":-0}', '{"b":1e3}', '{"b":9223372036854775808}', '{"b":1},"z":{"b":1}',
    '{"b":1}}', '{"b":"\\ud83d"}', '{"b":1',
    '{"b":1e400}', '{"b":-9223372036854775809}', '{"b":1},"a":{}', "null", '{"b":\x01}', '{"b":01}', "{'b':1}",
]
BAD_OWN = ["", "0", "080", "65536", "99999", "True", "false", "+1", " 1", "1\n", "١", "-1", "9" * 5000]


def deep_event(levels):
    """An event text whose one value is so deep."""
    return '"a":{"b":' + "[" * levels + "]" * levels + "}"


# ---- spans


class Spans(Drawn):
    """Makes random Zipkin spans; many of their tags have a meaning of their own, or would have it with another value."""

    def attributes(self):
        """What an event may have, read back as it is."""
        held = {self.reserved_key() if self.chance(0.2) else self.choice(*KEYS, self.text()): self.leaf() for _ in range(self.some(4))}
        return {key: ("number", 5) if kind in ["double", "bytes"] else (kind, value) for key, (kind, value) in held.items()}

    def annotation(self):
        name = json.dumps(self.choice("a", "", self.text()), ensure_ascii=self.chance(0.3))
        end, no_end = self.choice(*EVENT_ENDS), self.choice(*NO_EVENT_ENDS)
        read = zipkin.event_text(self.text(), self.attributes())
        spelled = [read, f"{name}:{end}", f"{name}:{no_end}", f" \t{name} \r\n: {end}", deep_event(self.choice(DEEPEST - 1, DEEPEST, DEEPEST + 1))]
        return self.time(), self.choice(self.text(), "", name, *spelled)

    def time(self):
        return self.choice(0, 1, LAST_MICROS, self.random.randrange(LAST_MICROS))

    def tag_value(self, key):
        texts = {
            "otel.status_code": ["OK", "ERROR", "ERROR", "ok", "UNSET", ""],
            **{key: ["0", "7", "4294967295", "4294967296", "07", "-1", "", "9" * 5000] for key in jaeger.DROPPED_KEYS},
        }
        return self.choice(*texts.get(key, ["", "x", "true", "8080", self.text()]))

    def tags(self, resource):
        special = [*RESERVED, *OWN, "peer.service", RESOURCE + "service.name", "span.kind"]
        keys = [self.choice(*special) if self.chance(0.5) else self.choice(*KEYS, self.text()) for _ in range(self.some(12))]
        keys += [self.behind_fronts(key) for key in special if self.chance(0.05)]
        keys = [key for key in keys if not key.startswith(("otel.scope", "otel.library"))]
        return {key: self.tag_value(key) for key in keys} | {RESOURCE + key: text for key, text in resource.items()}

    def endpoint(self, service):
        if self.chance(0.5):
            return zipkin.Endpoint(service)
        addresses = self.choice("", "10.0.0.7", "no address"), self.choice("", "2001:db8::c001")
        return zipkin.Endpoint(service, *addresses, self.choice(0, 1, 8080, 65535))

    def span(self, service, resource, scope):
        start, kind = self.time(), self.choice("", "", *zipkin.KINDS)
        duration = min(self.choice(0, 1, 207_000, LAST_MICROS), LAST_MICROS - start)
        return zipkin.Span(
            self.id(128), self.id(64), self.choice(0, 0, self.id(64)), self.choice("", "get", self.text()), kind, start, duration,
            self.chance(0.2), self.chance(0.2), self.endpoint(service), self.endpoint(self.choice("", "", "db", self.text())),
            [self.annotation() for _ in range(self.some(3))], self.tags(resource) | scope,
        )

    def scope(self):
        parts = {"name": ["", "lib", "lib", self.text()], "version": ["1.0", "1.0", "2"]}
        families = ["scope", "library"] if self.chance(0.3) else ["scope"]
        return {f"otel.{family}.{part}": self.choice(*texts) for family in families for part, texts in parts.items() if self.chance(0.7)}

    def spans(self):
        """Spans in runs of equal resources and scopes."""
        out, service, resource, scope = [], "shop", {}, {}
        for _ in range(self.choice(0, 1, 1, 2, 3, 8)):
            if self.chance(0.3):
                service = self.choice("", "shop", "shop", self.text())
            if self.chance(0.3):
                resource = {self.choice(*KEYS): self.choice("", "h1", self.text()) for _ in range(self.some(3))}
            if self.chance(0.4):
                scope = self.scope()
            out.append(self.span(service, resource, scope))
        return out


# ---- documents


class Documents(Speller, Spans):
    """Spells spans as documents, in ways in which no writer does."""

    UNKNOWN = ["", "traceID", "Tags", "id ", "annotation", "x"]

    def digits(self, n, most):
        """The digits of an identifier, not all of those that a writer gives."""
        text = f"{n:0{self.choice(most, most, most // 2, 1)}x}"
        return text.upper() if self.is_odd() else text

    def spelled_endpoint(self, endpoint):
        members = []
        for name, held in [("serviceName", endpoint.service), ("ipv4", endpoint.ipv4), ("ipv6", endpoint.ipv6)]:
            members += self.some_member(name, held, "")
        return self.object(members + self.some_member("port", endpoint.port, 0))

    def spelled_annotation(self, time, value):
        return self.object([("timestamp", time), ("value", value)])

    def spelled_span(self, span):
        """A span as a tree of members."""
        members = [("traceId", self.digits(span.trace, 32)), ("id", self.digits(span.id, 16))]
        members += self.some_member("parentId", span.parent and self.digits(span.parent, 16), "0", "0" * 16)
        members += self.some_member("name", span.name, "") + self.some_member("kind", span.kind)
        members += self.some_member("timestamp", span.start, 0) + self.some_member("duration", span.duration, 0)
        members += self.some_member("debug", span.debug, False) + self.some_member("shared", span.shared, False)
        for name, endpoint in [("localEndpoint", span.local), ("remoteEndpoint", span.remote)]:
            members += self.some_member(name, endpoint != zipkin.Endpoint() and self.spelled_endpoint(endpoint), Members())
        members += self.some_member("annotations", [self.spelled_annotation(*annotation) for annotation in span.annotations], [])
        tags = list(span.tags.items()) + [(key, None) for key in ["nothing", "error"] if key not in span.tags and self.is_odd()]
        self.random.shuffle(tags)
        return self.object(members + self.some_member("tags", Members(tags), Members()))

    def tree(self):
        return [self.spelled_span(span) for span in self.spans()]


# ---- spoilt documents

BAD_IDS = ["", "0", "00", "0" * 40, "g", "+1", " 1", "1\n", "0x1", "1" * 17, "1" * 33, "f" * 32, "f" * 16, "１", "-1", "ab\0", "é"]
BAD_TIMES = [
    -1, 0, LAST_MICROS, LAST_MICROS + 1, 2**63, 2**64 - 1, -(2**63), "5", *map(Raw, ["18446744073709551616", "-9223372036854775809", "1.0"]),
    *map(Raw, ["1e3", "-0", "-0.0", "1e400", "9" * 400, "000", "1.", "--1"]),
]


class DocumentSpoiler(TreeSpoiler, Documents):
    """Spoils documents of spans."""

    BAD = {
        **{name: BAD_IDS for name in ["traceId", "id", "parentId"]}, **{name: BAD_TIMES for name in ["timestamp", "duration"]},
        "kind": ["", "client", "INTERNAL", "CLIENT ", "SERVER", "\0"], "port": [-1, 0, 65535, 65536, 2**64, "80", Raw("80.0"), Raw("8e1")],
        **{name: ["true", 0, 1, True] for name in ["debug", "shared"]},
    }
    AROUND = '[{"traceId":"1","id":"2","deep":%s}]'


# ---- traces


class ZipkinTraces(Traces):
    """Makes random traces in OTLP. Of the faults for which Zipkin can't hold a part some are drawn, which parts have by this
    chance."""

    def __init__(self, seed, chance):
        super().__init__(seed, 0)
        self.chances = {number: self.choice(0, chance) for number in [*jaeger.FAULTS, *zipkin.FAULTS]}

    def leaf(self):
        kind, held = super().leaf()
        return ("number", 7) if kind == "double" and not self.fault(25) else (kind, held)

    def own(self):
        """Attributes under the own keys."""
        texts = {"debug": ["true"], "shared": ["true"], "ipv4": ["10.0.0.7", "x"], "ipv6": ["::1"], "port": ["1", "80", "65535"]}
        out = {key: ("text", self.choice(*texts[key.split(".")[-1]])) for key in OWN if self.chance(0.15)}
        if self.fault(22):
            out[self.choice(*OWN)] = self.choice(("truth", True), ("number", 80), ("nothing", None), ("text", self.choice(*BAD_OWN)))
        if self.chance(0.3):
            out["peer.service"] = self.choice(("text", "db"), ("text", ""), ("nothing", None), ("list", []), ("bytes", b"x"))
        return out

    def event(self):
        event = super().event()
        if not event.attributes and zipkin.read_event_text(event.name) is not None:
            event.name = ""
        if self.fault(23):
            event.name, event.attributes = '"a":' + self.choice(*EVENT_ENDS), self.choice({}, {}, event.attributes)
        return event

    def span(self):
        span = super().span()
        span.attributes = {key: value for key, value in span.attributes.items() if key not in OWN} | self.own()
        return span

    def group(self):
        """Groups of which some follow others of the same resource."""
        group = super().group()
        if self.chance(0.3):
            group.resource = self.choice({}, {"service.name": ("text", "shop")})
        return group

