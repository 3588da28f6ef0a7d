"""Draws random documents of OTLP/JSON, and traces that it can hold or can't, for the scripts that compare the program with
otlp_json.py."""
import base64
import os
import sys

sys.path.insert(1, os.path.dirname(os.path.dirname(os.path.realpath(__file__))))
import rooms  # first: it finds the others
import otlp_json
from drawn import Traces
from otlp import DEEPEST
from spelled_json import Members, Raw, Speller, TreeSpoiler

VALUES = [name for name, _ in otlp_json.TABLE["AnyValue"]]
NESTS = ["arrayValue", "kvlistValue"]


class JsonTraces(Traces):
    """Makes random traces in OTLP, with doubles by chance alone. Of the faults for which Jaeger can't hold a part none are drawn."""

    def __init__(self, seed, chance):
        super().__init__(seed, 0)
        self.chances[25] = self.choice(0, chance)

    def leaf(self):
        kind, held = super().leaf()
        return ("number", 7) if kind == "double" and not self.fault(25, 0.2) else (kind, held)


class GroupDocuments(Speller, JsonTraces):
    """Spells groups without doubles as documents, in ways in which no writer does."""

    UNKNOWN = ["", "resource_spans", "trace_id", "TraceId", "traceID", "string_value", "instrumentationLibrarySpans", "entityRefs", "x"]

    def __init__(self, seed):
        super().__init__(seed, 0)

    def digits(self, n, full):
        text = f"{n:0{full}x}"
        return text.upper() if self.is_odd() else text

    def whole(self, n):
        """A number as such or as a text, with a sign and zeros in front by chance."""
        if not self.is_odd():
            return n if self.chance(0.3) else str(n)
        sign = "-" if n < 0 or n == 0 and self.chance(0.5) else ""
        return sign + "0" * self.choice(0, 1, 3, 50, 5000) + str(abs(n))

    def counted(self, name, n):
        return self.some_member(name, n and self.whole(n), 0, "0", "-0", "000")

    def numbered(self, name, n):
        """A number whose default is rarely left out."""
        return [(name, self.whole(n))] if n or self.chance(0.2) else self.counted(name, 0)

    def spelled_value(self, value):
        """A value as a tree of members; all others of it are null, if they are there."""
        kind, held = value
        member = {
            "text": lambda: ("stringValue", held), "truth": lambda: ("boolValue", held), "number": lambda: ("intValue", self.whole(held)),
            "bytes": lambda: ("bytesValue", base64.b64encode(held).decode()),
            "list": lambda: ("arrayValue", self.object(self.some_member("values", [self.spelled_value(one) for one in held], []))),
            "map": lambda: ("kvlistValue", self.object(self.some_member("values", self.spelled_pairs(held), []))),
        }.get(kind)
        members = [member()] if member else []
        others = [(name, None) for name in VALUES if self.is_odd() and name not in dict(members)]
        return self.object(others + members)

    def spelled_pair(self, key, value):
        members = self.some_member("key", key, "")
        if value[0] == "nothing" and self.is_odd():
            return self.object(members + [("value", None)] * self.choice(0, 1))
        return self.object(members + [("value", self.spelled_value(value))])

    def spelled_pairs(self, attributes):
        """Pairs in any order, before some of which stand others of their keys."""
        out = [(key, value) for key, value in attributes.items()]
        self.random.shuffle(out)
        firsts = [(key, self.leaf()) for key in attributes if self.is_odd()]
        return [self.spelled_pair(*pair) for pair in firsts + out]

    def with_attributes(self, attributes, dropped):
        return self.some_member("attributes", self.spelled_pairs(attributes), []) + self.counted("droppedAttributesCount", dropped)

    def spelled_event(self, event):
        members = self.numbered("timeUnixNano", event.time) + self.some_member("name", event.name, "")
        return self.object(members + self.with_attributes(event.attributes, event.dropped))

    def spelled_link(self, link):
        members = [("traceId", self.digits(link.trace, 32)), ("spanId", self.digits(link.id, 16))]
        members += self.some_member("traceState", link.state, "") + self.counted("flags", link.flags)
        return self.object(members + self.with_attributes(link.attributes, link.dropped))

    def lost_link(self):
        """A link that points nowhere."""
        members = [("traceId", self.choice("", "0" * 32, None)), ("spanId", self.digits(7, 16)), ("traceState", "x"), ("flags", "1")]
        others = [("traceId", self.digits(7, 32)), ("spanId", self.choice("", "0" * 16, None))]
        return self.object(self.choice(members, others, []))

    def spelled_links(self, links):
        out = [self.spelled_link(link) for link in links]
        while self.is_odd():
            out.insert(self.random.randrange(len(out) + 1), self.lost_link())
        return out

    def spelled_span(self, span):
        """A span as a tree of members."""
        members = [("traceId", self.digits(span.trace, 32)), ("spanId", self.digits(span.id, 16))]
        members += self.some_member("parentSpanId", span.parent and self.digits(span.parent, 16), "", "0" * 16)
        members += self.some_member("traceState", span.state, "") + self.some_member("name", span.name, "") + self.some_member("kind", span.kind, 0)
        members += self.numbered("startTimeUnixNano", span.start) + self.numbered("endTimeUnixNano", span.end)
        members += self.with_attributes(span.attributes, span.dropped_attributes) + self.counted("flags", span.flags)
        members += self.counted("droppedEventsCount", span.dropped_events) + self.counted("droppedLinksCount", span.dropped_links)
        members += self.some_member("events", list(map(self.spelled_event, span.events)), []) + self.some_member("links", self.spelled_links(span.links), [])
        status = self.some_member("message", span.message, "") + self.some_member("code", span.code, 0)
        return self.object(members + self.some_member("status", self.object(status), Members()))

    def spelled_scope(self, scope):
        inner = self.some_member("name", scope.name, "") + self.some_member("version", scope.version, "")
        inner = self.object(inner + self.with_attributes(scope.attributes, scope.dropped))
        members = self.some_member("scope", inner, Members()) + self.some_member("spans", list(map(self.spelled_span, scope.spans)), [])
        return self.object(members + self.some_member("schemaUrl", scope.schema_url, ""))

    def spelled_group(self, group):
        members = self.some_member("resource", self.object(self.with_attributes(group.resource, group.dropped)), Members())
        members += self.some_member("scopeSpans", list(map(self.spelled_scope, group.scopes)), [])
        return self.object(members + self.some_member("schemaUrl", group.schema_url, ""))

    def tree(self):
        return self.object(self.some_member("resourceSpans", [self.spelled_group(group) for group in self.groups()], []))


# ---- spoilt documents

BAD_IDS = [
    "", "0", "0" * 16, "0" * 32, "1" * 15, "1" * 16, "1" * 17, "1" * 31, "1" * 32, "1" * 33, "g" * 16, "g" * 32, "+" + "1" * 15, " " + "1" * 31,
    "0x" + "1" * 14, "1" * 15 + "\n", "１" * 16, "AAAAAAAAAAI=", "AAAAAAAAAAAAAAAAAAAAAQ==", 1, "ef" * 16, "Ef" * 8, "é" * 8,
]
BAD_NUMBERS = [
    -1, 0, 2**31, 2**32 - 1, 2**32, 2**63 - 1, 2**63, 2**64 - 1, -(2**63), "", "-", "+1", " 1", "1 ", "1.0", "1e3", "0x1", "١", "--1", "-1", "-0", "00",
    *map(str, [2**32 - 1, 2**32, 2**63 - 1, 2**63, -(2**63), -(2**63) - 1, 2**64 - 1, 2**64, 10**50]), "0" * 5000 + "7", "9" * 5000,
    *map(Raw, ["18446744073709551616", "-9223372036854775809", "1.0", "1e3", "-0", "-0.0", "1e400", "000", "5E-1"]),
]
BAD_ENUMS = [-1, 0, 2, 3, 5, 6, 2**32, 2**64 - 1, -(2**63), "2", "SPAN_KIND_SERVER", "STATUS_CODE_OK", "", *map(Raw, ["1.0", "-0", "1e0", "18446744073709551616"])]
BAD_BYTES = ["", "=", "A", "AA", "AAA", "AAAA", "AA==", "AB==", "AAA=", "AAB=", "A===", "AA=A", "AAA==", "A A=", "AA==\n", "-_==", "/+==", "/w==", "é", "AA==AAAA"]


class GroupSpoiler(TreeSpoiler, GroupDocuments):
    """Spoils documents of groups."""

    BAD = {
        **{name: BAD_IDS for name in ["traceId", "spanId", "parentSpanId"]},
        **{name: BAD_NUMBERS for name in ["startTimeUnixNano", "endTimeUnixNano", "timeUnixNano", "flags", "intValue"]},
        **{name: BAD_NUMBERS for name in ["droppedAttributesCount", "droppedEventsCount", "droppedLinksCount"]},
        "kind": BAD_ENUMS, "code": BAD_ENUMS, "bytesValue": BAD_BYTES, "doubleValue": [None, 1, "NaN", Raw("1.5")], "boolValue": ["true", 0, 1, False],
        "stringValue": ["", 1, None], "value": ["x", None, Members()], "status": [Members([("code", 3)]), Members([("message", 1), ("code", "2")])],
    }
    AROUND = '{"resourceSpans":[{"scopeSpans":[]}],"deep":%s}'

    def deep_value(self, levels):
        """A value with so many lists and maps within each other."""
        value = Members([(self.choice(*NESTS), self.choice(Members(), *(Members([("values", held)]) for held in [[], [Members()], [1], 1])))])
        for _ in range(levels - 1):
            nest = self.choice(*NESTS)
            inner = value if nest == "arrayValue" else Members([("value", value)])
            value = Members([(nest, Members([("values", [inner])]))])
        return value

    def wrong_members(self, members):
        is_value = dict(members).keys() & set(VALUES)
        return Members([("doubleValue", self.choice(0, "NaN", Raw("1.5")))]) if is_value and self.is_wrong("doubleValue") else super().wrong_members(members)

    def more_members(self, names):
        yield from super().more_members(names)
        if names.keys() & set(VALUES) and self.is_wrong():
            yield from self.choice([("doubleValue", 1)], [("intValue", "x")], [("stringValue", "x"), ("boolValue", 1)], [("bytesValue", "AA==")])
        if "key" in names and self.is_wrong("value"):
            yield "value", self.deep_value(self.choice(DEEPEST - 2, DEEPEST - 1, DEEPEST, DEEPEST + 1, DEEPEST + 2, 40))
