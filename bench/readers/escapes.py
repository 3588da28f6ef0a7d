"""Keys of attributes behind `otel.attr.`, under which Jaeger and Zipkin have what would else stand under a key of their own.

A key is touched where it is a target's own without the copies of the front that it begins with. An attribute under such a key is
written under it with the front once more. A tag under such a key that isn't the target's own is the attribute of that key without one
copy. All other keys stay, also those that begin with the front.
"""
import re

FRONT = "otel.attr."
COPIES = re.compile(r"(?:otel\.attr\.)*")


def base(key):
    """A key without all the copies of the front that it begins with."""
    return key[COPIES.match(key).end() :]


def written_key(key, is_reserved):
    """The key of the tag of an attribute."""
    return FRONT + key if is_reserved(base(key)) else key


def read_key(key, is_reserved):
    """The key of the attribute of a tag whose key isn't reserved."""
    return key.removeprefix(FRONT) if is_reserved(base(key)) else key


def escaped(attributes, is_reserved):
    """Attributes by the keys of their tags."""
    return {written_key(key, is_reserved): value for key, value in attributes.items()}


def unescaped(tags, is_reserved):
    """Tags by the keys of their attributes."""
    return {read_key(key, is_reserved): value for key, value in tags.items()}
