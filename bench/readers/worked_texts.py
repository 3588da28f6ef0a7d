"""The worked texts of spans, each of which stands once: in crates/row_tables/src/texts.rt, which the program's tests name as well."""
import os
import re
import sys

sys.path.insert(1, os.path.dirname(os.path.dirname(os.path.realpath(__file__))))
import rooms

PATH = os.path.join(rooms.TOP, "crates", "row_tables", "src", "texts.rt")
TEXT = re.compile(r'^pub const (\w+): &str =\s*(?:r#"(.*?)"#|"((?:[0-9a-f]|\\\n *)*)");$', re.MULTILINE | re.DOTALL)


def worked_texts():
    """The bytes of each text of spans by its name. What is in hexadecimal there is bytes here."""
    with open(PATH, encoding="utf-8") as source:
        told = TEXT.findall(source.read())
    return {name: raw.encode() if raw else bytes.fromhex(re.sub(r"\\\s+", "", digits)) for name, raw, digits in told}
