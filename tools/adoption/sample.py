"""A stream of each of their messages, which protoc makes, and what a dump shows of it."""
import base64
import json
import subprocess

from generators import Refused
from generators.model import json_name

from .pairs import FLAT, LAST_FLAT

# The kinds of numbers of 64 bits, which are texts in JSON, and those of which no dump shows a value.
WIDE = ("uint64", "int64", "fixed64", "sint64", "sfixed64")
REAL = ("double", "float")

# How deep messages are filled.
DEPTH = 3


class Value:
    """A value of a field: its text for protoc, and what a dump shows where the field here is of the same kind or of
    another one that is read alike."""

    def __init__(self, kind, text, value):
        self.kind, self.text, self.value = kind, text, value

    def shown(self, kind):
        if kind in ("string", "bytes"):
            data = self.value.encode()
            return base64.b64encode(data).decode() if kind == "bytes" else self.value
        if kind == "bool":
            return bool(self.value)
        number = int(self.value)
        return str(number % 2 ** 64) if kind in WIDE else number if kind == "enum" else number % 2 ** 32


class Sample:
    """Values of their messages."""

    def __init__(self, adoption, described):
        self.pairs = adoption.pairs
        self.here = {message.name: message for message in described.messages}
        self.names = dict(self.pairs.names)
        if adoption.version() <= LAST_FLAT:
            self.names[self.pairs.found[FLAT].name] = FLAT
        self.count = 0

    def scalar(self, field):
        """A value of a field that holds no message, or None."""
        self.count += 1
        n = self.count
        if field.kind == "string":
            return Value(field.kind, f'"text {n}"', f"text {n}")
        if field.kind == "bytes":
            return Value(field.kind, f'"\\001bytes {n}"', f"\1bytes {n}")
        if field.kind == "bool":
            return Value(field.kind, "true", True)
        if field.kind == "enum":
            enum = self.pairs.their_enums.get(field.type_name)
            return Value(field.kind, *enum.values[-1][:2]) if enum else None
        return Value(field.kind, f"{n}.5" if field.kind in REAL else str(n), n)

    def field(self, field, known, depth):
        """The text of a field, and what a dump shows of it by the field that is known here, each None where there is
        nothing of it."""
        if field.kind in ("map", "group"):
            return None, None
        if field.kind == "message":
            held = self.pairs.theirs.get(field.type_name)
            if held is None or depth > DEPTH:
                return None, None
            text, shown = self.message(held, self.here.get(known.type_name) if known else None, depth + 1)
            return f"{{ {text} }}", shown
        value = self.scalar(field)
        if value is None:
            return None, None
        shown = value.shown(known.kind) if known and field.kind not in REAL else None
        # a number of 0 is not shown, nor is any field that has its default value
        is_default = shown == 0 and known and not known.label and not known.oneof
        return value.text, None if is_default else shown

    def message(self, message, here, depth=0):
        """The text of a message with every field and the last member of each oneof, and what a dump shows of it."""
        known = {field.number: field for field in here.fields} if here else {}
        members = {field.oneof: field for field in message.fields if field.oneof}
        texts, shown, last = [], {}, {}
        for field in sorted(message.fields, key=lambda field: field.number):
            if field.oneof and members[field.oneof] is not field:
                continue
            ours = known.get(field.number)
            # with what no field here reads, a message would be malformed
            if ours is not None and ours.kind != field.kind and self.pairs.reading(ours, field) is None:
                continue
            text, value = self.field(field, ours, depth)
            if text is None:
                continue
            texts.append(f"{field.name}: {text}")
            if ours is None or value is None:
                continue
            if ours.oneof:
                # of several members the last one is kept
                shown.pop(last.get(ours.oneof), None)
                last[ours.oneof] = json_name(ours.name)
            shown[json_name(ours.name)] = [value] if field.label == "repeated" else value
        return " ".join(texts), shown

    def of_type(self, name):
        """Their message of a type, with its text and what a dump shows of it, or None."""
        other = self.pairs.found.get(name) or next(
            (other for there, other in self.pairs.theirs.items() if self.pairs.names.get(there) == name), None
        )
        if name == FLAT or other is None:
            return None
        return other, *self.message(other, self.here[self.names.get(other.name, name)])


def encoded(other, text, path, package, folders):
    """The bytes that protoc makes of a message's text."""
    package = other.package or package
    name = ".".join(part for part in (package, other.path or other.name) if part)
    searched = [f"--proto_path={folder}" for folder in (path.parent, *folders)]
    words = ["protoc", *searched, f"--encode={name}", path.name]
    ended = subprocess.run(words, input=text.encode(), capture_output=True)
    if ended.returncode != 0:
        told = ended.stderr.decode("utf-8", "replace").strip()
        raise Refused([f"protoc makes no sample of {name}: {line}" for line in told.splitlines()])
    return ended.stdout


def stream_of(adoption, theirs, path, described, folders=()):
    """A stream of each of their messages, and for each the type and the fields that its dump has."""
    sample = Sample(adoption, described)
    stream, expected = b"", []
    codes = {message.name: message.options["code"] for message in described.messages if "code" in message.options}
    for name, code in codes.items():
        made = sample.of_type(name)
        if made is None:
            continue
        other, text, shown = made
        data = encoded(other, text, path, theirs.package, folders)
        stream += code.to_bytes(2, "big") + bytes(2) + len(data).to_bytes(4, "big") + data
        expected.append((name.removesuffix("Message"), shown))
    return stream, expected


def compared(dump, expected):
    """What a dump says otherwise than the messages that are in the stream."""
    lines = [json.loads(line) for line in dump.splitlines() if line.strip()]
    for place, (name, shown) in enumerate(expected):
        line = lines[place] if place < len(lines) else {}
        if line.get("type") != name or line.get("message") != shown:
            yield f"{name}: {json.dumps(line.get('message', line))}, and not {json.dumps(shown)}"
