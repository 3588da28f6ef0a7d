"""OTLP/JSON by Python's protobuf library, which has identifiers in base64 and not in hex as OTLP asks."""
import base64
import json

from google.protobuf import json_format

IDENTIFIERS = ["traceId", "spanId", "parentSpanId"]
STOCK = {"use_integers_for_enums": True}


def with_identifiers(held, change):
    """A JSON value whose identifiers are changed."""
    if isinstance(held, list):
        return [with_identifiers(element, change) for element in held]
    if not isinstance(held, dict):
        return held
    return {name: change(inner) if name in IDENTIFIERS else with_identifiers(inner, change) for name, inner in held.items()}


def hexed(text):
    return base64.b64decode(text).hex()


def unhexed(text):
    return base64.b64encode(bytes.fromhex(text)).decode()


def document(message, **options):
    """What the library prints of a request, with hex for identifiers."""
    return with_identifiers(json_format.MessageToDict(message, **STOCK, **options), hexed)


def untouched(message, **options):
    """What the library prints of a request."""
    return json_format.MessageToJson(message, **options).encode()


def parsed(request, text):
    """The request that the library reads in a document with hex for identifiers."""
    return json_format.ParseDict(with_identifiers(json.loads(text), unhexed), request())


def compact(held):
    """The text of a JSON value of Python, members by name."""
    return json.dumps(held, ensure_ascii=False, separators=(",", ":"), sort_keys=True).encode()


def text(message):
    """The canonical text of a request in its normal form."""
    return compact(document(message) or {"resourceSpans": []})
