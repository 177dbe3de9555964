"""The fields of payloads as test vectors, conformance/fields.txt.

The payloads are those of the lines `payload` of conformance/payloads.txt, and those that protoc makes for
conformance/records.txt. Which of them are canonical, and what is not well-formed, those lines say; the entries are read
here, by the fields of the protocol's description. Nothing of this project's own code takes part.
"""
import re

from . import ROOT, missing  # noqa: F401
from .descriptors import varint
from .proto import OneOf, schemas

ABOUT = "Test vectors of fields."
SOURCE = "proto/journal.proto and other test vectors"

FOLDER = ROOT / "conformance"
FILE = "conformance/fields.txt"

HEAD = """\
# The fields of payloads, of all levels: those of payloads.txt and records.txt.

"""

# The numbers of the kinds of entries.
KINDS = {"u32": 1, "u64": 2, "bool": 3, "enum": 4, "text": 5, "bytes": 6, "message": 7}


def fields_of(message):
    """The fields of a message by their numbers, with those of oneofs."""
    listed = [row.members if isinstance(row, OneOf) else [row] for row in message.rows]
    return {field.number: field for fields in listed for field in fields}


def entries(messages, message, content, begin, end, level):
    """The entries of the fields of a canonical payload that is between two places, and of those within them."""
    place = begin
    while place < end:
        key, place = varint(content, place)
        field = fields_of(message)[key >> 3]
        start, first = (level, field.number, KINDS[field.kind]), place
        number, place = varint(content, place)
        if key & 7 == 0:
            yield (*start, number, 0, 0)
            continue
        first, place = place, place + number
        if field.kind == "u32":
            while first < place:
                element, first = varint(content, first)
                yield (*start, element, 0, 0)
        elif field.kind == "message":
            inner = messages[field.message]
            yield (*start, inner.schema, first, number)
            yield from entries(messages, inner, content, first, place, level + 1)
        else:
            yield (*start, 0, first, number)


def written(rows):
    return ", ".join(" ".join(map(str, row)) for row in rows) or "-"


def cases():
    """The payloads, each with its schema, and what it is canonically."""
    for line in (FOLDER / "payloads.txt").read_text(encoding="utf-8").splitlines():
        match = re.fullmatch(r"payload (\w+) (\S+) = (\S+)", line)
        if match:
            yield match.groups()
    for line in (FOLDER / "records.txt").read_text(encoding="utf-8").splitlines():
        match = re.match(r"record (\w+) (\S+) = ", line)
        if match:
            yield match[1], match[2], match[2]


def lines():
    messages = {message.name: message for message in schemas()}
    said = set()
    for schema, content, canonical in cases():
        for given in (content, canonical):
            if given == "malformed" or (schema, given) in said:
                continue
            said.add((schema, given))
            if canonical == "malformed":
                result = "malformed"
            elif given != canonical:
                result = "not_canonical"
            else:
                payload = bytes.fromhex(given.replace("-", ""))
                result = written(entries(messages, messages[schema], payload, 0, len(payload), 0))
            yield f"fields {schema} {given} = {result}\n"


def paths():
    return [FILE]


def files():
    return {FILE: HEAD + "".join(lines())}
