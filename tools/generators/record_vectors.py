"""The names of fields as test vectors, conformance/records.txt, with protoc as the encoder.

For each message there is a value with every row present and each field a value of its own; of a oneof it has one
member, and there is a value for each. Then comes the value of which nothing is present. A line names a message, the
bytes that protoc (Debian's protobuf-compiler) makes out of proto/journal.proto and a text that names the fields, and
the value as Rust's derived Debug prints it, made of the same names and values. After these lines come the frames of
the same values, where the message is that of a type: at version 8, and where an earlier version writes it otherwise at
each; a type's code is read from conformance/frames.txt. Nothing of this project's own code takes part.
"""
import functools
import re
import subprocess

from . import ROOT
from .payloads import absent, struct
from .proto import PROTO, OneOf, camel, description, messages, without_protoc
from .renumbered import Renumbering

ABOUT = "Test vectors of each message, by protoc."
SOURCE = "proto/journal.proto, by protoc"

FOLDER = ROOT / "conformance"
FILE = "conformance/records.txt"

HEAD = """\
# The names of fields: for each message a value with every field present and each another, with each member of its
# oneofs in turn, and the value of which nothing is present; and the frames of the first, where the message is that of a
# type. The payloads are those of protoc.
"""

# The versions of the frames of a message: the last, and all where an earlier one writes it otherwise.
VERSIONS = {"ProposeRunCompletionMessage": (5, 6, 7, 8, 9), "SuspensionMessage": (5, 6, 7, 8, 9)}
LAST_VERSION = 9


class Values:
    """Values of fields, each another, as the text that protoc reads and as Rust prints them."""

    def __init__(self, table):
        self.table = table
        self.count = 0

    def scalar(self, kind):
        self.count += 1
        n = self.count
        if kind == "u32":
            number = n if n % 2 else 300 + n
            return str(number), str(number)
        if kind == "u64":
            number = (1 << 40) + n
            return str(number), str(number)
        if kind == "bool":
            return "true", "true"
        if kind == "enum":
            return str(-n), str(-n)
        if kind == "text":
            return f'"t\\303\\251{n}"', f'"t\u00e9{n}"'
        return f'"\\377{n}"', f'b"\\xff{n}"'

    def value(self, field, deep):
        if field.kind != "message":
            return self.scalar(field.kind)
        text, printed = self.message(self.table[field.message], 0, deep + 1)
        return "{ " + text + " }", printed

    def field(self, field, deep):
        """The field's text, and its value as it is printed."""
        if field.presence == "repeated":
            if field.message == "Future" and deep > 1:
                return "", "[]"
            values = [self.value(field, deep) for _ in range(2)]
            text = " ".join(f"{field.name}: {value[0]}" for value in values)
            return text, f"[{', '.join(value[1] for value in values)}]"
        text, printed = self.value(field, deep)
        return f"{field.name}: {text}", printed if field.presence == "plain" else f"Some({printed})"

    def message(self, message, variant, deep):
        """The message's text, and how it is printed, with the given member of each oneof."""
        texts = []
        rows = []
        for row in message.rows:
            if isinstance(row, OneOf):
                member = row.members[variant % len(row.members)]
                text, printed = self.value(member, deep)
                texts.append(f"{member.name}: {text}")
                rows.append(f"{row.name}: Some({camel(member.name)}({printed}))")
            else:
                text, printed = self.field(row, deep)
                texts.append(text)
                rows.append(f"{row.name}: {printed}")
        return " ".join(texts), struct(message.name, rows)


@functools.cache
def same_numbers():
    return Renumbering(description(), description())


def encoded(name, text):
    """The bytes that protoc makes of a text, in the order of the rows: protoc writes a member of a oneof at its own
    number, where the library has the oneof at its least one."""
    made = subprocess.run(
        ["protoc", f"--proto_path={PROTO.parent}", f"--encode={description().package}.{name}", PROTO.name],
        input=text.encode(),
        stdout=subprocess.PIPE,
        check=True,
    )
    return same_numbers().payload(name, made.stdout, True)


def values(message, table):
    """The values of a message in which every row is present, each as the text that protoc reads and as it is
    printed."""
    members = max([len(row.members) for row in message.rows if isinstance(row, OneOf)], default=1)
    return [Values(table).message(message, member, 1) for member in range(members)]


def codes():
    """The code of each type, in four digits, from the frames of the messages in which nothing is present."""
    lines = (FOLDER / "frames.txt").read_text(encoding="utf-8").splitlines()
    found = [re.match(r"frame (\w+) 5 - = ([0-9a-f]{4})0{12}$", line) for line in lines]
    return {match[1]: match[2] for match in found if match}


def frame(name, code, version, text):
    """The frame, at a version, of the message that a text says."""
    payload = encoded(name, text)
    flag = 0
    if name == "ProposeRunCompletionMessage" and version >= 7:
        flag = 0x80
    if name == "SuspensionMessage" and version < 7:
        # what is awaited is in the text in the order of the three lists: that of a future before that of the
        # futures in it
        payload = encoded("SuspensionMessageV6", " ".join(re.findall(r"\bwaiting_\w+: \S+", text)))
    return bytes.fromhex(code) + bytes([flag, 0]) + len(payload).to_bytes(4, "big") + payload


def hexadecimal(content):
    """Bytes as a line has them."""
    return content.hex() or "-"


def lines(message, table, types):
    """The lines of a message."""
    name = message.name
    whole = values(message, table)
    nothing = [("", struct(name, [f"{row.name}: {absent(row)}" for row in message.rows]))] if message.rows else []
    for text, printed in whole + nothing:
        yield f"record {name} {hexadecimal(encoded(name, text))} = {printed}\n"
    ty = name.removesuffix("Message")
    if ty == name or ty not in types:
        return
    for text, _ in whole:
        payload = hexadecimal(encoded(name, text))
        for version in VERSIONS.get(name, (LAST_VERSION,)):
            yield f"frame {ty} {version} {payload} = {hexadecimal(frame(name, types[ty], version, text))}\n"


def records():
    """The text of the file."""
    table = {message.name: message for message in messages()}
    types = codes()
    parts = [HEAD]
    for message in table.values():
        parts.append(f"\n# {message.comment}\n")
        parts.extend(lines(message, table, types))
    return "".join(parts)


def missing():
    return without_protoc()


def paths():
    return [FILE]


def files():
    return {FILE: records()}
