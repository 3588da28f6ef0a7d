#!/usr/bin/python3
"""Makes texts of the tags of Zipkin v2 spans that are numbers or truth values, as py_zipkin writes them: API v2 has texts alone.

It is run as examples/texts_of_tags.py < spans.json > mended.json. A number becomes a text with the letters that it has (402,
1.50), a truth value true or false; how many there were goes to standard error. A tag that is null, a list or an object stays,
and so does all else, numbers as they were written. What is no array of spans is told in one line, and the status is 1. It needs
nothing but Python.
"""
import sys

from written_json import Number, Wrong, given, read, run, write


def main(given_text):
    spans = read(given_text)
    if not isinstance(spans, list):
        raise Wrong("this is no array of spans")
    count = 0
    for span in spans:
        tags = given(span, "tags", dict, {})
        for key, held in tags.items():
            if isinstance(held, (Number, bool)):
                tags[key] = str(held) if isinstance(held, Number) else write(held)
                count += 1
    print(f"tags {count}", file=sys.stderr)
    return write(spans) + "\n", 0


if __name__ == "__main__":
    if sys.argv[1:]:
        sys.exit(__doc__)
    run(main)
