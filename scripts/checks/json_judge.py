"""JSON read as payloads, and by protobuf's own parser: json_judge.py SEED COUNT < LINES

It takes the package for Python, which has to be installed or in PYTHONPATH, protoc and Python's protobuf. The lines are
those of conformance/json. COUNT is how many random values of each message there are, each as a text in a free form
(members shuffled, by either name, numbers as texts and with exponents, spaces, escapes) and as the same text damaged.

A text has to be read as the payload that protobuf's parser makes of it, or by neither. Where a value in it is one of
those by which the two differ (docs/DIFFERENCES.md, "Where protobuf's parser of JSON differs"), it is counted and not
judged; a text in free form never has one. The last line is 'N passed, M failed'.
"""

import decimal
import json
import pathlib
import random
import re
import sys

sys.dont_write_bytecode = True
sys.path.insert(0, str(pathlib.Path(__file__).resolve().parents[2] / "tools"))

from google.protobuf import json_format  # noqa: E402
from google.protobuf.descriptor import FieldDescriptor  # noqa: E402

import pendratsoa  # noqa: E402
from generators import protobuf_dumps  # noqa: E402

INTEGERS = (FieldDescriptor.TYPE_UINT32, FieldDescriptor.TYPE_UINT64)
# what a damaged text gets in the place of, or between, its bytes
PIECES = [bytes([byte]) for byte in b'{}[]:,"\\ 0123456789+-.eE_=/nul\x00\x1f\x80\xff'] + [
    *(b"null", b"true", b"NaN", b"Infinity", b"\\u0041", b"\\ud800", b"\xc3\xa9", b'"x":1,', b"1.5", b"1e3", b'"1.0"'),
    *(b"-1", b"[]", b"{}"),
]


class Number(str):
    """The text of a number."""


class Writer:
    """Writes a message as a text of JSON in a free form."""

    def __init__(self, r):
        self.r = r

    def space(self):
        return "".join(self.r.choice(" \t\n\r") for _ in range(self.r.choice([0, 0, 0, 1, 3])))

    def text(self, value):
        """A string, each of its characters as it is or escaped."""
        short = {'"': '\\"', "\\": "\\\\", "/": "\\/", "\b": "\\b", "\f": "\\f", "\n": "\\n", "\r": "\\r", "\t": "\\t"}
        out = ""
        for character in value:
            if character in short and (character != "/" or self.r.random() < 0.5):
                out += short[character]
            elif ord(character) < 0x20 or self.r.random() < 0.2:
                units = character.encode("utf-16-be")
                out += "".join(
                    f"\\u{int.from_bytes(units[at : at + 2], 'big'):04{self.r.choice('xX')}}"
                    for at in range(0, len(units), 2)
                )
            else:
                out += character
        return f'"{out}"'

    def integer(self, value):
        """A number in digits or in a string, or with a point or an exponent where a float has it exactly."""
        forms = [str(value), f'"{value}"']
        if 0 <= value < 1 << 53:
            forms += [f"{value}.0", f"{value}.000", f"{value}e0", f"{value}.0e+0"]
            if value % 100 == 0:
                forms.append(f"{value // 100}e2")
            if value > 0:
                forms.append(f"{value}0E-1")
        return self.r.choice(forms)

    def base64(self, value):
        """Bytes in either alphabet, with padding or without."""
        text = json_format.base64.b64encode(value).decode()
        if self.r.random() < 0.5:
            text = text.replace("+", "-").replace("/", "_")
        return self.text(text.rstrip("=") if self.r.random() < 0.5 else text)

    def value(self, field, value):
        if field.type in INTEGERS:
            return self.integer(value)
        if field.type == FieldDescriptor.TYPE_ENUM:
            named = field.enum_type.values_by_number.get(value)
            return self.r.choice([str(value), f'"{value}"'] + ([f'"{named.name}"'] if named else []))
        if field.type == FieldDescriptor.TYPE_BOOL:
            return "true" if value else "false"
        if field.type == FieldDescriptor.TYPE_BYTES:
            return self.base64(value)
        if field.type == FieldDescriptor.TYPE_STRING:
            return self.text(value)
        return self.message(value)

    def joined(self, opening, parts, closing):
        return opening + self.space() + f"{self.space()},{self.space()}".join(parts) + self.space() + closing

    def message(self, message):
        present = dict((field.name, (field, value)) for field, value in message.ListFields())
        members = []
        for field in message.DESCRIPTOR.fields:
            if field.name in present:
                _, value = present[field.name]
                if field.label == FieldDescriptor.LABEL_REPEATED:
                    text = self.joined("[", [self.value(field, element) for element in value], "]")
                else:
                    text = self.value(field, value)
            elif self.r.random() < 0.1:
                text = "null"
            else:
                continue
            name = self.r.choice([field.name, field.json_name])
            members.append(f"{self.text(name)}{self.space()}:{self.space()}{text}")
        self.r.shuffle(members)
        return self.joined("{", members, "}")


def damaged(r, text):
    """A text with a few bytes replaced, inserted, left out or repeated."""
    data = bytearray(text)
    for _ in range(r.choice([1, 1, 1, 2, 3])):
        at = r.randrange(len(data) + 1)
        kind = r.randrange(5)
        if kind == 0:
            data[at : at + 1] = r.choice(PIECES)
        elif kind == 1:
            data[at:at] = r.choice(PIECES)
        elif kind == 2:
            del data[at : at + r.choice([1, 1, 2, 5])]
        elif kind == 3:
            end = min(len(data), at + r.choice([1, 2, 8, 20]))
            data[at:at] = data[at:end]
        else:
            # a value of another kind in the place of a string or a number
            found = [
                match.span() for match in re.finditer(rb'"(?:[^"\\]|\\.)*"|-?[0-9.eE+]+|true|false|null', bytes(data))
            ]
            if found:
                begin, end = r.choice(found)
                data[begin:end] = r.choice(PIECES)
    return bytes(data)


class Differences:
    """Whether a text has a value by which protobuf's parser and this project differ on purpose."""

    def __init__(self, descriptor, text):
        self.descriptor = descriptor
        self.text = text

    def any(self):
        try:
            tree = json.loads(
                self.text.decode(),
                parse_int=Number,
                parse_float=Number,
                parse_constant=Number,
                object_pairs_hook=list_of_pairs,
            )
        except (ValueError, RecursionError):
            return False
        return self.message(self.descriptor, tree, 1)

    def message(self, descriptor, value, depth):
        # an empty list or string is a message for protobuf, and the last level is one level further up
        if value in ([], "") or depth > 100:
            return True
        if not isinstance(value, Pairs):
            return False
        by_name = {name: field for field in descriptor.fields for name in (field.name, field.json_name)}
        seen = {}
        for name, member in value.pairs:
            field = by_name.get(name)
            if field is None:
                continue
            # protobuf takes a member by each of its two names
            if seen.setdefault(field.name, name) != name:
                return True
            elements = (
                member if field.label == FieldDescriptor.LABEL_REPEATED and isinstance(member, list) else [member]
            )
            if any(self.value(field, element, depth) for element in elements):
                return True
        return False

    def value(self, field, value, depth):
        if field.message_type is not None:
            return value is not None and self.message(field.message_type, value, depth + 1)
        if field.type in INTEGERS or field.type == FieldDescriptor.TYPE_ENUM:
            return self.number(field, value)
        if field.type == FieldDescriptor.TYPE_BYTES and isinstance(value, str) and not isinstance(value, Number):
            return not is_base64(value)
        return False

    def number(self, field, value):
        is_enum = field.type == FieldDescriptor.TYPE_ENUM
        if isinstance(value, bool):
            return is_enum
        if isinstance(value, Number):
            if re.fullmatch(r"-?[0-9]+", value):
                return False
            # protobuf cuts an enum to a whole number, and other numbers are floats for it
            return is_enum or value in ("NaN", "Infinity", "-Infinity") or decimal.Decimal(value) != float(value)
        if isinstance(value, str):
            # protobuf takes what Python's int takes, and no point and no exponent
            return re.fullmatch(r"-?(0|[1-9][0-9]*)", value) is None
        return False


class Pairs:
    """The members of an object."""

    def __init__(self, pairs):
        self.pairs = pairs


def list_of_pairs(pairs):
    return Pairs(pairs)


def is_base64(text):
    """Whether a string is base64 of one alphabet, with its padding or without."""
    match = re.fullmatch(r"([A-Za-z0-9+/]*|[A-Za-z0-9_-]*)(=*)", text)
    if match is None or match[2] not in ("", "=" * (-len(match[1]) % 4)) or len(match[1]) % 4 == 1:
        return False
    data = json_format.base64.urlsafe_b64decode(match[1].replace("+", "-").replace("/", "_") + "==")
    written = json_format.base64.urlsafe_b64encode(data).decode().rstrip("=")
    return written == match[1].replace("+", "-").replace("/", "_")


class Judge:
    """Compares what the two read."""

    def __init__(self, kinds):
        self.kinds = kinds
        self.passed = self.failed = self.taken = self.refused = self.differences = 0

    def ours(self, schema, text):
        try:
            return pendratsoa.from_json(schema, text)
        except pendratsoa.JsonError:
            return None

    def protobuf(self, schema, text):
        message = getattr(self.kinds, schema)()
        try:
            json_format.Parse(text, message)
        except Exception:
            # its own errors, and those of Python for what it does not expect
            return None
        return pendratsoa.canonical(schema, message.SerializeToString())

    def count(self, is_right, schema, text, what):
        if is_right:
            self.passed += 1
        else:
            self.failed += 1
            if self.failed < 6:
                print(f"failed: {schema}: {what}: {text[:400]!r}")

    def read(self, schema, text, payload):
        """A text that both have to read as this payload."""
        found = self.ours(schema, text), self.protobuf(schema, text)
        self.count(found == (payload, payload), schema, text, f"{found} and not {payload!r}")

    def damage(self, schema, text):
        found, wanted = self.ours(schema, text), self.protobuf(schema, text)
        if found == wanted:
            self.taken += found is not None
            self.refused += found is None
        elif Differences(getattr(self.kinds, schema).DESCRIPTOR, text).any():
            self.differences += 1
            return
        self.count(found == wanted, schema, text, f"{found!r}, and protobuf {wanted!r}")


def main():
    seed, count = map(int, sys.argv[1:3])
    kinds = protobuf_dumps.load()
    judge = Judge(kinds)
    for line in sys.stdin:
        if line.startswith("json "):
            question, _, text = line.rstrip("\n").partition(" = ")
            _, schema, digits = question.split(" ")
            payload = pendratsoa.canonical(schema, b"" if digits == "-" else bytes.fromhex(digits))
            judge.read(schema, text.encode(), payload)
    r = random.Random(seed)
    for schema in pendratsoa.SCHEMA_NAMES:
        for _ in range(count):
            message = getattr(kinds, schema)()
            protobuf_dumps.fill(r, message, 0)
            text = Writer(r).message(message).encode()
            judge.read(schema, text, pendratsoa.canonical(schema, message.SerializeToString()))
            for _ in range(3):
                judge.damage(schema, damaged(r, text))
    print(f"damaged texts: {judge.taken} read alike, {judge.refused} by neither, {judge.differences} differ on purpose")
    print(f"{judge.passed} passed, {judge.failed} failed")
    return 1 if judge.failed else 0


if __name__ == "__main__":
    sys.exit(main())
