"""What `losses` must print of an input, by the readers and tables beside this.

A loss is a difference between a trace and its normal form, which is what the target can hold of it. Each field in which they can
differ has a row here; attributes are compared key by key. A form of OTLP holds all of a trace, and has no losses: of a double, which
has no place in its JSON, it has a fault.

Jaeger holds each group as a batch, in which scopes of one name and version join where they follow one another. Zipkin holds spans
alone, one after the other: there a group joins the one before where its resource, in normal form, is that of the span before, and its
first scope joins where it has the name and the version of that span's scope. A group without spans is none of Zipkin, and none that
stands between; what differs in its resource and its scopes is told all the same.
"""
import forms
import jaeger
import zipkin
from forms import ZIPKIN
from protocols import PROTOCOLS
from reports import RESOURCE, WHOLE, event_at, link_at, place_words, quoted, scope_at, span_at

LOSSES = "losses"
# The rows in the order in which losses at one place are told.
ROWS = [
    "value", "dropped-count", "schema-url", "empty", "attributes", "start", "end", "time", "kind", "message", "flags", "state", "link",
    "scope-empty", "scope-joined", "unit-empty", "unit-joined",
]
TABLES = {**{form: jaeger for form in PROTOCOLS}, ZIPKIN: zipkin}
# The rows that a target has.
OF_TARGET = {
    form: [row for row in ROWS if row not in {jaeger: ["link", "unit-empty", "unit-joined"], zipkin: ["state"]}[table]] for form, table in TABLES.items()
}
# Of each part of a trace its fields that a normal form may have otherwise, each with its row. Attributes have rows by their keys.
SPAN = {"start": "start", "end": "end", "kind": "kind", "message": "message", "flags": "flags"}
EVENT = {"dropped": "dropped-count", "time": "time"}
LINK = {"dropped": "dropped-count", "attributes": "attributes", "flags": "flags", "state": "state"}
SCOPE = {"dropped": "dropped-count", "schema_url": "schema-url", "attributes": "attributes"}
GROUP = {"dropped": "dropped-count", "schema_url": "schema-url"}


def fields(place, rows, held, normal):
    """A loss of each field that differs."""
    return [(place, row, "") for field, row in rows.items() if getattr(held, field) != getattr(normal, field)]


def attributes(place, held, normal):
    """A loss of each attribute that goes, or stays with another value."""
    return [(place, "value" if key in normal else "empty", key) for key, value in held.items() if normal.get(key) != value]


def span_losses(place, span, normal):
    """Those of a span, whose place is a function of the place in it."""
    found = fields(span_at(*place), SPAN, span, normal) + attributes(span_at(*place), span.attributes, normal.attributes)
    for number, (event, kept) in enumerate(zip(span.events, normal.events, strict=True), 1):
        at = event_at(*place, number)
        found += fields(at, EVENT, event, kept) + attributes(at, event.attributes, kept.attributes)
    if not normal.links:
        return found + [(link_at(*place, number), "link", "") for number, _ in enumerate(span.links, 1)]
    for number, (link, kept) in enumerate(zip(span.links, normal.links, strict=True), 1):
        found += fields(link_at(*place, number), LINK, link, kept)
    return found


def scope_losses(number, first, scope, before, table):
    """Those of a scope and its spans, of which the first has this number; before are the name and the version of the scope of the
    span before, where the scope can join it."""
    at = scope_at(number)
    found = fields(at, SCOPE, scope, type(scope)(scope.name, scope.version))
    if not scope.spans:
        found.append((at, "scope-empty", ""))
    elif before == (scope.name, scope.version):
        found.append((at, "scope-joined", ""))
    for n, span in enumerate(scope.spans, first):
        found += span_losses((number, n), span, table.normal_span(span))
    return found


def group_losses(group, before, target):
    """The losses of a group, and what stands before the next: the resource of the last span, in normal form, and its scope's name and
    version, or None."""
    table = TABLES[target]
    resource = table.normal_resource(group.resource)
    found = fields(RESOURCE, GROUP, group, type(group)()) + attributes(RESOURCE, group.resource, resource)
    names, number = None, 1
    if target == ZIPKIN:
        follows, has_spans = before is not None and before[0] == resource, any(scope.spans for scope in group.scopes)
        names = before[1] if follows else None
        found += [(WHOLE, "unit-joined", "")] if follows and has_spans else [] if has_spans else [(WHOLE, "unit-empty", "")]
    for c, scope in enumerate(group.scopes, 1):
        found += scope_losses(c, number, scope, names, table)
        number += len(scope.spans)
        if scope.spans:
            names = scope.name, scope.version
            before = resource, names
    return found, before


def losses_of(groups, target):
    """The losses of groups one after the other, each with the number of its group."""
    before = None
    for number, group in enumerate(groups if target in TABLES else [], 1):
        found, before = group_losses(group, before, target)
        for loss in sorted(found, key=lambda loss: (loss[0], ROWS.index(loss[1]), loss[2].encode())):
            yield number, *loss


def line(number, place, row, key):
    return f"{place_words(number, place)}: {row}" + (f" {quoted(key)}" if row in ["value", "empty"] else "") + "\n"


def told(found, target):
    """The status, the note and the output of groups that are found, until they are refused, and the name of that outcome."""
    status, note, name, groups = forms.outcome(found, target, lambda group: group)
    lines = [line(*loss) for loss in losses_of(groups, target)]
    if status == 0:
        lines.append(f"losses {len(lines)}\n")
    return status, note, "".join(lines).encode(), name


def verdict(text, source, target):
    """The same of an input."""
    return told(forms.groups(text, source), target)


def normal(groups, target):
    """The normal form of groups without a fault."""
    return TABLES[target].normal(groups) if target in TABLES else groups
