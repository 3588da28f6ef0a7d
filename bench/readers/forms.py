"""What the program must answer to an input, for each pair of forms, by the readers, tables and writers beside this."""
import functools
import itertools
import json

import jaeger
import otlp
import otlp_json
import zipkin
from json_text import Refusal
from otlp import NAMES
from protocols import PROTOCOLS

OTLP, JSON, ZIPKIN = "otlp-proto", "otlp-json", "zipkin-json"
FORMS = [OTLP, JSON, *PROTOCOLS, ZIPKIN]
PAIRS = list(itertools.product(FORMS, FORMS))
FAULTS = {20: "EndBeforeStart", 22: "OwnKey", 23: "EventText", 24: "ChildOfLink", 25: "DoubleInText"}

# Of each form in JSON how its groups are read, and of each binary form how its next unit is found, the offences of a unit, and the group that it means.
DOCUMENTS = {JSON: otlp_json.read_groups, ZIPKIN: lambda text: zipkin.groups_of_spans(zipkin.read_spans(text))}
SOURCES = {
    OTLP: (otlp.next_unit, otlp.unit_offences, otlp.read_group),
    **{
        form: (functools.partial(jaeger.next_unit, form=form), jaeger.offences, lambda unit: jaeger.group_of_batch(jaeger.read_batch(unit)))
        for form in PROTOCOLS
    },
}
# Of each form the faults of a group, the texts that are written of one, and what stands before, between and behind all texts.
BINARY = b"", b"", b""
TARGETS = {
    OTLP: (lambda group: [], lambda group: [otlp.write_group(group)], BINARY),
    JSON: (otlp_json.faults, lambda group: [otlp_json.write_group(group)], (b'{"resourceSpans":[', b",", b"]}")),
    **{
        form: (jaeger.faults, lambda group, form=form: [jaeger.write_batch(jaeger.batch_of_group(group), form)], BINARY)
        for form in PROTOCOLS
    },
    ZIPKIN: (zipkin.faults, lambda group: [zipkin.write_span(span) for span in zipkin.spans_of_group(group)], (b"[", b",", b"]")),
}


def groups(text, source):
    """The groups of a text one after the other, until it is refused."""
    if source in DOCUMENTS:
        yield from DOCUMENTS[source](text)
        return
    find, offences_of, read = SOURCES[source]
    at = 0
    for number in itertools.count(1):
        try:
            found = find(text, at)
        except otlp.Refused as why:
            raise Refusal(number, why.args[0]) from None
        if found is None:
            return
        _, unit, at = found
        bad = offences_of(unit)
        if bad:
            raise Refusal(number, min(bad)[1])
        yield read(unit)


def partial(written, target):
    """The text of groups without what closes it; that of no group is empty."""
    opening, between, _ = TARGETS[target][2]
    return opening + between.join(itertools.chain(*written)) if written else b""


def whole(written, target):
    opening, _, closing = TARGETS[target][2]
    return (partial(written, target) or opening) + closing


def write(groups, target):
    """The text of groups without a fault."""
    return whole([TARGETS[target][1](group) for group in groups], target)


def faulted(number, fault):
    place, cause, key = fault
    key = f" {json.dumps(key, ensure_ascii=False)}" if cause == 22 else ""
    return 4, f"unit {number}: fault {cause} {FAULTS[cause]}{key}\n", FAULTS[cause]


def outcome(found, target, made_of):
    """The status and the note of groups that are found, until they are refused, the name of that outcome, and what is made of each group
    that was reached."""
    faults_of = TARGETS[target][0]
    made = []
    try:
        for number, group in enumerate(found, 1):
            bad = faults_of(group)
            if bad:
                return (*faulted(number, min(bad, key=lambda fault: (fault[0], fault[1], fault[2].encode()))), made)
            made.append(made_of(group))
    except Refusal as why:
        number, cause = why.args
        return 3, f"unit {number}: cause {cause} {NAMES[cause]}\n", NAMES[cause], made
    return 0, "", "written", made


def verdict(text, source, target):
    """The status, the note and the output that an input must have, and the name of that outcome."""
    status, note, name, written = outcome(groups(text, source), target, TARGETS[target][1])
    return status, note, whole(written, target) if status == 0 else partial(written, target), name
