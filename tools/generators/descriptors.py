"""What protoc reads in a .proto file: its messages, enums and options, with the lines and the comments of each.

protoc writes a descriptor set, which is decoded here, since Python's protobuf need not be installed. What protoc
rejects is rejected with its own words.
"""
import dataclasses
import itertools
import json
import pathlib
import re
import subprocess
import tempfile

from . import Refused

# The kinds of fields, by their numbers in descriptors.
KINDS = {
    1: "double", 2: "float", 3: "int64", 4: "uint64", 5: "int32", 6: "fixed64", 7: "fixed32", 8: "bool", 9: "string",
    10: "group", 11: "message", 12: "bytes", 13: "uint32", 14: "enum", 15: "sfixed32", 16: "sfixed64", 17: "sint32",
    18: "sint64",
}
REPEATED = 3

# The file that declares the options, with many messages.
OPTIONS_OF_PROTOBUF = "google/protobuf/descriptor.proto"

# protobuf's own options that say something of bytes or of JSON, by their numbers.
FIELD_OPTIONS = {2: "packed"}
ENUM_OPTIONS = {2: "allow_alias"}
MAP_ENTRY = 7

# The forms of values in which a group begins and ends, and those that have a fixed length.
GROUP, END = 3, 4
FIXED = {1: 8, 5: 4}

# Where what has a place is in its descriptor: the steps of the path of a location.
MESSAGES, ENUMS, SERVICES = 4, 5, 6
FIELDS, NESTED, NESTED_ENUMS, ONEOFS = 2, 3, 4, 8
VALUES = 2


def varint(data, at):
    """The number that begins at a place, and where it ends."""
    number = shift = 0
    while True:
        byte = data[at]
        number |= (byte & 127) << shift
        at, shift = at + 1, shift + 7
        if byte < 128:
            return number, at


def length_of(data, form, at):
    """The length of a value that is written in a form which does not say it: of a group, with the end of it."""
    if form != GROUP:
        return FIXED[form]
    start = at
    while True:
        key, at = varint(data, at)
        if key % 8 == END:
            return at - start
        if key % 8 == 0:
            _, at = varint(data, at)
        else:
            length, at = varint(data, at) if key % 8 == 2 else (length_of(data, key % 8, at), at)
            at += length


class Record:
    """A message that is encoded: the values of its fields by their numbers, as they come."""

    def __init__(self, data):
        self.fields = {}
        at = 0
        while at < len(data):
            key, at = varint(data, at)
            if key % 8 == 0:
                value, at = varint(data, at)
            else:
                length, at = varint(data, at) if key % 8 == 2 else (length_of(data, key % 8, at), at)
                value, at = data[at:at + length], at + length
            self.fields.setdefault(key // 8, []).append(value)

    def number(self, field, default=0):
        return self.fields.get(field, [default])[-1]

    def signed(self, field):
        """A number that may be negative, which is written in 64 bits."""
        number = self.number(field)
        return number - (1 << 64) if number >= 1 << 63 else number

    def text(self, field):
        return self.fields.get(field, [b""])[-1].decode(errors="replace")

    def record(self, field):
        return Record(b"".join(self.fields.get(field, [])))

    def records(self, field):
        return [Record(data) for data in self.fields.get(field, [])]

    def packed(self, field):
        """The numbers of a packed field."""
        numbers = []
        for data in self.fields.get(field, []):
            at = 0
            while at < len(data):
                number, at = varint(data, at)
                numbers.append(number)
        return tuple(numbers)


@dataclasses.dataclass
class Named:
    """What has a name, a line on which it begins, one on which it ends, the comment before it or else after it, and
    options by their names."""

    name: str
    line: int = 0
    end: int = 0
    comment: str = ""
    options: dict = dataclasses.field(default_factory=dict)


@dataclasses.dataclass
class Field(Named):
    """A field: its number, its kind as the language has it, the name of its message or enum, whether it is `optional`
    or `repeated`, the oneof that it is a member of, its name in JSON, and the default that a file in proto2 says."""

    number: int = 0
    kind: str = ""
    type_name: str = ""
    label: str = ""
    oneof: str = ""
    json_name: str = ""
    default: str = ""


@dataclasses.dataclass
class Enum(Named):
    """An enum: its values, each a name, a number and a line, what is said of each by its name, and the message in which
    it is."""

    values: list = dataclasses.field(default_factory=list)
    said: dict = dataclasses.field(default_factory=dict)
    within: str = ""


@dataclasses.dataclass
class Message(Named):
    """A message: its fields and its oneofs in the order of the file, the message in which it is, its package where that
    is another one than the file's, which imports it, its path in that package where it is not its name, and the comment
    after its opening brace where there is one before it."""

    fields: list = dataclasses.field(default_factory=list)
    oneofs: list = dataclasses.field(default_factory=list)
    within: str = ""
    package: str = ""
    path: str = ""
    after: str = ""


@dataclasses.dataclass
class Description:
    """A file: what it is written in, its package, and its messages and enums, those within messages after these."""

    syntax: str = "proto2"
    package: str = ""
    messages: list = dataclasses.field(default_factory=list)
    enums: list = dataclasses.field(default_factory=list)
    services: list = dataclasses.field(default_factory=list)


def prefix_of(file):
    """How the full names of what a file declares begin."""
    return f".{file.text(2)}" if file.text(2) else ""


class Reader:
    """Reads the last file of a descriptor set; the others are those that it imports, whose messages and enums are read
    too if that is asked for."""

    def __init__(self, data, with_imports=False):
        files = Record(data).records(1)
        self.files = [
            file for file in files if file is files[-1] or with_imports and file.text(1) != OPTIONS_OF_PROTOBUF
        ]
        self.file = files[-1]
        # the messages and the enums of all files by their full names, and what each is called without these
        self.known, self.names, self.taken = {}, {}, set()
        self.extensions = {}
        for file in reversed(files):
            self.know(prefix_of(file), file.records(MESSAGES), file.records(ENUMS), "")
            for extension in file.records(7):
                self.extensions[extension.text(2), extension.number(3)] = extension
        self.found = Description(self.file.text(12) or "proto2", self.file.text(2))

    def know(self, prefix, messages, enums, within):
        """Takes note of messages and enums that are next to each other, and then of those within the messages."""
        for one in (*messages, *enums):
            full = f"{prefix}.{one.text(1)}"
            self.known[full] = one
            self.names[full] = self.free_name(prefix, one.text(1), within)
        for message in messages:
            full = f"{prefix}.{message.text(1)}"
            nested = [one for one in message.records(NESTED) if not one.record(7).number(MAP_ENTRY)]
            self.know(full, nested, message.records(NESTED_ENUMS), self.names[full])
            self.known.update(
                (f"{full}.{one.text(1)}", one) for one in message.records(NESTED) if one.record(7).number(MAP_ENTRY)
            )

    def free_name(self, prefix, name, within):
        """The name of a message or an enum, which begins with what it is in, or else with its package, if another one
        is called so."""
        package = "".join(word[:1].upper() + word[1:] for word in re.split(r"[._]", prefix))
        longer = [f"{within or package}{name}", f"{package}{name}"]
        numbered = (f"{name}{at}" for at in itertools.count(2))
        free = next(one for one in itertools.chain([name], longer, numbered) if one not in self.taken)
        self.taken.add(free)
        return free

    def described(self):
        for file in reversed(self.files):
            self.file = file
            self.places = {place.packed(1): place for place in file.record(9).records(1)}
            self.describe()
        return self.found

    def describe(self):
        """Reads one file."""
        prefix = prefix_of(self.file)
        for at, message in enumerate(self.file.records(MESSAGES)):
            self.message((MESSAGES, at), message, f"{prefix}.{message.text(1)}", "")
        for at, enum in enumerate(self.file.records(ENUMS)):
            self.enum((ENUMS, at), enum, f"{prefix}.{enum.text(1)}", "")
        for at, one in enumerate(self.file.records(SERVICES)):
            self.found.services.append(self.named(Named, (SERVICES, at), one))

    def named(self, kind, path, record, **parts):
        """What has a name, with its place and its comment."""
        place = self.places.get(path, Record(b""))
        span = place.packed(2)
        comment = " ".join((place.text(3) or place.text(4)).split())
        end = (span[0] if len(span) == 3 else span[2]) + 1 if span else 0
        return kind(record.text(1), span[0] + 1 if span else 0, end, comment, **parts)

    def message(self, path, message, full, within):
        """A message of a full name, and those within it."""
        found = self.named(Message, path, message, within=within)
        found.name = self.names[full]
        found.package = self.file.text(2) if self.file.text(2) != self.found.package else ""
        own = full.removeprefix(f"{prefix_of(self.file)}.")
        found.path = own if own != found.name else ""
        place = self.places.get(path, Record(b""))
        found.after = " ".join(place.text(4).split()) if place.text(3) else ""
        found.options = self.options(message.record(7), "MessageOptions", {})
        self.found.messages.append(found)
        # each optional field is in a oneof of its own, which the file does not have
        optional = {field.number(9) for field in message.records(FIELDS) if field.number(17)}
        names = [oneof.text(1) for oneof in message.records(ONEOFS)]
        for at, oneof in enumerate(message.records(ONEOFS)):
            if at not in optional:
                found.oneofs.append(self.named(Named, (*path, ONEOFS, at), oneof))
                found.oneofs[-1].options = self.options(oneof.record(2), "OneofOptions", {})
        for at, field in enumerate(message.records(FIELDS)):
            is_member = 9 in field.fields and not field.number(17)
            found.fields.append(self.field((*path, FIELDS, at), field, names[field.number(9)] if is_member else ""))
        for at, nested in enumerate(message.records(NESTED)):
            if not nested.record(7).number(MAP_ENTRY):
                self.message((*path, NESTED, at), nested, f"{full}.{nested.text(1)}", found.name)
        for at, enum in enumerate(message.records(NESTED_ENUMS)):
            self.enum((*path, NESTED_ENUMS, at), enum, f"{full}.{enum.text(1)}", found.name)

    def field(self, path, field, oneof):
        found = self.named(Field, path, field, number=field.number(3), oneof=oneof, json_name=field.text(10))
        found.kind, found.default = KINDS[field.number(5)], field.text(7)
        found.type_name = self.type_name(field)
        found.label = "repeated" if field.number(4) == REPEATED else "optional" if field.number(17) else ""
        entry = self.known.get(field.text(6))
        if entry is not None and entry.record(7).number(MAP_ENTRY):
            parts = [self.type_name(one) or KINDS[one.number(5)] for one in entry.records(FIELDS)]
            found.kind, found.label, found.type_name = "map", "", f"map<{', '.join(parts)}>"
        found.options = self.options(field.record(8), "FieldOptions", FIELD_OPTIONS)
        return found

    def type_name(self, field):
        """What the message or the enum of a field is called."""
        return self.names.get(field.text(6), field.text(6).rpartition(".")[2])

    def enum(self, path, enum, full, within):
        found = self.named(Enum, path, enum, within=within)
        found.name = self.names[full]
        found.options = self.options(enum.record(3), "EnumOptions", ENUM_OPTIONS)
        for at, value in enumerate(enum.records(VALUES)):
            place = self.named(Named, (*path, VALUES, at), value)
            found.values.append((place.name, value.signed(2), place.line))
            if place.comment:
                found.said[place.name] = place.comment
        self.found.enums.append(found)

    def options(self, record, extended, plain):
        """The options by their names, those of options.proto among them."""
        found = {name: record.number(number) for number, name in plain.items() if number in record.fields}
        for (target, number), extension in self.extensions.items():
            if target == f".google.protobuf.{extended}" and number in record.fields:
                found[extension.text(1)] = self.value(extension, record, number)
        return found

    def value(self, field, record, number):
        """The value of an option, whose field is this one."""
        kind = KINDS[field.number(5)]
        if kind == "message":
            held = record.record(number)
            parts = self.known[field.text(6)].records(FIELDS)
            return {
                part.text(1): self.value(part, held, part.number(3)) for part in parts if part.number(3) in held.fields
            }
        if kind == "string":
            return record.text(number)
        return bool(record.number(number)) if kind == "bool" else record.number(number)


def read(path, folders=(), with_imports=False):
    """The description in a file, by protoc; what it imports is looked for in these folders too, and read if that is
    asked for."""
    path = pathlib.Path(path)
    with tempfile.NamedTemporaryFile() as written:
        searched = [f"--proto_path={folder}" for folder in (path.parent, *folders)]
        words = [
            "protoc", *searched, "--include_source_info", "--include_imports", f"--descriptor_set_out={written.name}"
        ]
        ended = subprocess.run([*words, path.name], capture_output=True, text=True)
        if ended.returncode != 0:
            told = [line for line in ended.stderr.strip().splitlines() if not line.startswith("[libprotobuf WARNING")]
            raise Refused([f"protoc: {line}" for line in told])
        return Reader(pathlib.Path(written.name).read_bytes(), with_imports).described()


def to_json(described):
    """A description as JSON, one line per message, field, oneof and enum."""
    parts = dataclasses.asdict(described)
    lines = []
    for name, value in parts.items():
        if not isinstance(value, list):
            lines.append(f"{json.dumps(name)}: {line(value)}")
            continue
        entries = [entry(one) for one in value]
        lines.append(f"{json.dumps(name)}: [\n" + ",\n".join(entries) + "\n]" if entries else f"{json.dumps(name)}: []")
    return "{\n" + ",\n".join(lines) + "\n}"


def line(value):
    """A record in a line, without what it does not have."""
    held = {name: part for name, part in value.items() if part} if isinstance(value, dict) else value
    return json.dumps(held, ensure_ascii=False)


def entry(one):
    """A message or an enum: its own parts in a line, and one for each part that is a list of records."""
    own = {name: value for name, value in one.items() if name not in ("fields", "oneofs")}
    text = line(own)
    for name in ("fields", "oneofs"):
        if one.get(name):
            text = text[:-1] + f', "{name}": [\n  ' + ",\n  ".join(map(line, one[name])) + "]}"
    return text


def from_json(parts):
    """The description that to_json has written."""
    described = Description(parts["syntax"], parts["package"])
    for message in parts["messages"]:
        own = {name: value for name, value in message.items() if name not in ("fields", "oneofs")}
        described.messages.append(Message(**own))
        described.messages[-1].fields = [Field(**field) for field in message.get("fields", [])]
        described.messages[-1].oneofs = [Named(**oneof) for oneof in message.get("oneofs", [])]
    described.enums = [Enum(**enum) for enum in parts["enums"]]
    described.services = [Named(**service) for service in parts["services"]]
    return described
