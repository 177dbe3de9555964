"""Payloads at other field numbers as cases, conformance/numberings.cases.

A description with the protocol's messages, each of whose fields has a number that is drawn, is written here as a
descriptor set. Random payloads are written by both descriptions, each as its own canonical form has it. Nothing of this
project's own code takes part.
"""
import random

from . import ROOT, missing  # noqa: F401
from .model import OneOf, json_name, members_of
from .payloads import lengthy, varint
from .proto import messages, schemas, typed

ABOUT = "Cases of payloads at other field numbers."
SOURCE = "proto/journal.proto"

FILE = "conformance/numberings.cases"

HEAD = """\
# Payloads and streams at other field numbers: README.md specifies the lines.

"""

# What is drawn depends on it.
SEED = 20261129

# The messages of the description with a few: its set has some hundreds of bytes.
FEW = (
    "Void", "Value", "Failure", "Header", "Future", "SuspensionMessage", "SleepCommandMessage", "OutputCommandMessage",
    "CallCommandMessage", "SignalNotificationMessage",
)

# How many payloads each message has.
COUNT = 3

# The numbers of FieldDescriptorProto.Type.
TYPES = {"u64": 4, "bool": 8, "text": 9, "message": 11, "bytes": 12, "u32": 13, "enum": 14}

TABLE = {message.name: message for message in messages()}


def number(place, value):
    return varint(8 * place) + varint(value)


class Side:
    """A description: the number of each field, by its message and its name, and the name of each message."""

    def __init__(self, draw=None, kept=tuple(TABLE), names=None, extra=()):
        self.kept = kept
        self.names = names or {}
        self.extra = extra
        self.numbers = {}
        for message in messages():
            own = [member for row in message.rows for member in members_of(row)]
            drawn = draw.sample(range(1, 60), len(own)) if draw else [member.number for member in own]
            self.numbers[message.name] = dict(zip((member.name for member in own), drawn))

    def rows(self, message):
        """The rows in the order of their least numbers."""
        of = self.numbers[message.name]
        return sorted(message.rows, key=lambda row: min(of[member.name] for member in members_of(row)))

    def name(self, name):
        return self.names.get(name, name)

    def payload(self, name, values):
        """The canonical payload of a message that has these values by the names of fields."""
        message, of, out = TABLE[name], self.numbers[name], b""
        for row in self.rows(message):
            for field in members_of(row):
                if field.name in values:
                    out += self.records(field, of[field.name], values[field.name], isinstance(row, OneOf))
        return out

    def records(self, field, place, value, is_member):
        if field.presence == "repeated" and field.kind == "u32":
            return lengthy(place, b"".join(map(varint, value))) if value else b""
        if field.presence == "repeated":
            return b"".join(self.record(field, place, one) for one in value)
        if field.presence == "plain" and not is_member and value in (0, False, b""):
            return b""
        return self.record(field, place, value)

    def record(self, field, place, value):
        if field.kind == "message":
            return lengthy(place, self.payload(field.message, value))
        if isinstance(value, bytes):
            return lengthy(place, value)
        return number(place, value % (1 << 64))

    def set(self):
        """The descriptor set."""
        enums = sorted({field.enum for message in messages() for row in message.rows for field in members_of(row)
                        if field.kind == "enum"})
        file = lengthy(1, b"a.proto") + lengthy(2, b"a")
        file += b"".join(lengthy(4, self.described(TABLE[name])) for name in self.kept)
        file += b"".join(lengthy(4, one) for one in self.extra)
        for enum in enums:
            zero = lengthy(1, b"ZERO_" + enum.encode()) + number(2, 0)
            file += lengthy(5, lengthy(1, enum.encode()) + lengthy(2, zero))
        return lengthy(1, file + lengthy(12, b"proto3"))

    def described(self, message):
        out = lengthy(1, self.name(message.name).encode())
        oneofs = [row for row in message.rows if isinstance(row, OneOf)]
        alone = []
        for row in message.rows:
            for field in members_of(row):
                if field.kind == "message" and field.message not in self.kept:
                    continue
                out += lengthy(2, self.field(message, field, oneofs.index(row) if row in oneofs else None, alone))
        for name in [row.name for row in oneofs] + [f"_{name}" for name in alone]:
            out += lengthy(8, lengthy(1, name.encode()))
        return out

    def field(self, message, field, oneof, alone):
        repeated = field.presence == "repeated"
        out = lengthy(1, field.name.encode()) + number(3, self.numbers[message.name][field.name])
        out += number(4, 3 if repeated else 1) + number(5, TYPES[field.kind])
        if field.kind in ("message", "enum"):
            out += lengthy(6, b".a." + self.name(field.type_name).encode())
        if oneof is not None:
            out += number(9, oneof)
        elif field.presence == "optional":
            out += number(9, len([row for row in message.rows if isinstance(row, OneOf)]) + len(alone)) + number(17, 1)
            alone.append(field.name)
        return out + lengthy(10, json_name(field.name).encode())


class Values:
    """Random values of messages, of those that a description has."""

    def __init__(self, draw, kept):
        self.draw = draw
        self.kept = kept

    def message(self, name, left):
        found = {}
        for row in TABLE[name].rows:
            own = [field for field in members_of(row) if field.kind != "message" or field.message in self.kept]
            if not own or self.draw.random() < 0.25:
                continue
            field = self.draw.choice(own)
            if field.kind == "message" and left == 0:
                continue
            if field.presence == "repeated":
                found[field.name] = [self.one(field, left) for _ in range(self.draw.choice((0, 1, 3)))]
            else:
                found[field.name] = self.one(field, left)
        return found

    def one(self, field, left):
        draw = self.draw
        if field.kind == "message":
            return self.message(field.message, left - 1)
        if field.kind in ("text", "bytes"):
            return draw.choice((b"", b"a", "é".encode(), b"0123456789abcdef", b"x" * draw.randrange(130, 140)))
        if field.kind == "bool":
            return draw.random() < 0.5
        if field.kind == "enum":
            return draw.choice((0, 1, 2, -1, (1 << 31) - 1))
        return draw.choice((0, 1, 127, 128, 300, (1 << 32) - 1 if field.kind == "u32" else (1 << 64) - 1))


def word(content):
    return content.hex() or "-"


def both(name, ours, theirs, values, kept):
    """The lines of random payloads of each message of a description, both ways."""
    for message in schemas():
        if message.name not in kept:
            continue
        for _ in range(COUNT):
            held = values.message(message.name, 3)
            mine, other = ours.payload(message.name, held), theirs.payload(message.name, held)
            yield f"read {name} {message.name} {word(other)} = {word(mine)}\n"
            yield f"write {name} {message.name} {word(mine)} = {word(other)}\n"


def frame(code, payload, flags=0):
    return code.to_bytes(2, "big") + flags.to_bytes(2, "big") + len(payload).to_bytes(4, "big") + payload


def streams(name, ours, theirs, values):
    """The lines of a stream of a message of each type, both ways, whole and cut, with items that stay as they are."""
    codes = [(message.code, message.name) for message in typed() if message.before_version is None]
    held = [(code, values.message(record, 3), record) for code, record in codes if record in theirs.kept]
    rest = frame(0x0403, b"12345")[:9]
    others = frame(0xFC01, b"\x01") + frame(8, b"")
    mine = b"".join(frame(code, ours.payload(record, value)) for code, value, record in held)
    other = b"".join(frame(code, theirs.payload(record, value)) for code, value, record in held)
    for end in (b"", others, others + rest, rest[:3]):
        yield f"stream read {name} 8 {word(other + end)} = {word(mine + end)}\n"
        yield f"stream write {name} 8 {word(mine + end)} = {word(other + end)}\n"
    yield f"stream read {name} 4 - = unknown\n"
    yield f"stream read {name} 8 {word(frame(0x040C, bytes([0x08])))} = malformed\n"


def defined(name, content, renames=""):
    return f"set {name} {word(renames.encode())} {word(content)} = ok\n"


def rejected(content, kind, text, renames=b""):
    return f"set - {word(renames)} {word(content)} = {kind} {word(text.encode())}\n"


def message_set(*described):
    return lengthy(1, lengthy(1, b"b.proto") + b"".join(lengthy(4, one) for one in described) + lengthy(12, b"proto3"))


def simple(name, *fields):
    """A message with these fields: name, number, type."""
    out = lengthy(1, name)
    for field, place, kind in fields:
        out += lengthy(2, lengthy(1, field) + number(3, place) + number(4, 1) + number(5, kind) + lengthy(10, field))
    return out


def sections():
    draw = random.Random(SEED)
    ours = Side()
    yield "# The protocol's own description: nothing changes.\n"
    yield defined("own", ours.set())
    values = Values(draw, ours.kept)
    yield from (line for line in both("own", ours, ours, values, ours.kept))
    yield "\n# All messages, each with other numbers.\n"
    all_of = Side(draw)
    yield defined("all", all_of.set())
    yield from both("all", ours, all_of, values, all_of.kept)
    yield "\n# A stream of all types.\n"
    yield from streams("all", ours, all_of, values)
    yield "\n# A few messages, of which others have fields that the set has no message for; one has another name.\n"
    names = {"SleepCommandMessage": "WaitMessage"}
    few = Side(draw, FEW, names, (simple(b"Extra", (b"more", 1, 9)),))
    yield defined("few", few.set(), "WaitMessage=SleepCommand\n")
    some = Values(draw, FEW)
    yield from both("few", ours, few, some, FEW)
    yield "\n# A message that the set does not have has no fields there.\n"
    yield "read few StateEntry 0a0161 = -\nwrite few StateEntry 0a0161 = -\n"
    yield "\n# A field that only one of both has is passed over.\n"
    yield from only(ours, few)
    yield "\n# Records keep their order within a field and a oneof; lengths and numbers take their shortest form.\n"
    yield from spelled(ours, few)
    yield "\n# What is not made of records, or has a record of another form than its field.\n"
    yield from malformed(ours, few)
    yield "\n# No numbering comes of these.\n"
    yield from none(few)


def only(ours, few):
    place = few.numbers["SleepCommandMessage"]
    free = next(n for n in range(1, 60) if n not in place.values())
    theirs = number(place["wake_up_time"], 5) + lengthy(free, b"theirs") + lengthy(place["name"], b"n")
    yield f"read few SleepCommandMessage {word(theirs)} = {word(number(1, 5) + lengthy(12, b'n'))}\n"
    ours_only = number(1, 5) + number(7, 1)
    yield f"write few SleepCommandMessage {word(ours_only)} = {word(number(place['wake_up_time'], 5))}\n"


def spelled(ours, few):
    place = few.numbers["OutputCommandMessage"]
    mine = ours.numbers["OutputCommandMessage"]
    value, failure = lengthy(place["value"], b""), lengthy(place["failure"], b"")
    of_value, of_failure = lengthy(mine["value"], b""), lengthy(mine["failure"], b"")
    yield f"read few OutputCommandMessage {word(failure + value)} = {word(of_failure + of_value)}\n"
    yield f"read few OutputCommandMessage {word(value + failure)} = {word(of_value + of_failure)}\n"
    name = lengthy(place["name"], b"n")
    yield f"read few OutputCommandMessage {word(value + name + failure)} = " \
        f"{word(lengthy(mine['name'], b'n') + of_value + of_failure)}\n"
    wide = varint(8 * place["name"] + 2) + b"\x81\x00n"
    yield f"read few OutputCommandMessage {word(wide)} = {word(lengthy(mine['name'], b'n'))}\n"
    sleep = few.numbers["SleepCommandMessage"]
    wide = varint(8 * sleep["wake_up_time"]) + b"\x85\x80\x00"
    yield f"read few SleepCommandMessage {word(wide)} = {word(number(1, 5))}\n"


def malformed(ours, few):
    sleep, output = few.numbers["SleepCommandMessage"], few.numbers["OutputCommandMessage"]
    for payload in (
        varint(8 * sleep["name"] + 2) + b"\x02n",
        varint(8 * sleep["wake_up_time"]),
        varint(8 * sleep["wake_up_time"] + 5) + b"1234",
        varint(8 * sleep["wake_up_time"] + 1) + b"12345678",
        b"\x07",
        b"\x03",
    ):
        yield f"read few SleepCommandMessage {word(payload)} = malformed\n"
    for payload in (number(output["value"], 1), lengthy(output["value"], b"\x08")):
        yield f"read few OutputCommandMessage {word(payload)} = malformed\n"
    future = few.numbers["Future"]["nested_futures"]
    mine = ours.numbers["Future"]["nested_futures"]
    for levels, is_deep in ((100, False), (101, True)):
        theirs, own = b"", b""
        for _ in range(levels):
            theirs, own = lengthy(future, theirs), lengthy(mine, own)
        yield f"read few Future {word(theirs)} = {'malformed' if is_deep else word(own)}\n"


def none(few):
    yield rejected(b"\x08", "no_set", "not a descriptor set")
    yield rejected(b"\x0a\x01", "no_set", "not a descriptor set")
    # no message, and one whose field the protocol lacks
    yield rejected(b"", "no_set", "no field of the protocol's messages")
    other = simple(b"SleepCommand", (b"other", 1, 9))
    yield rejected(message_set(other), "no_set", "no field of the protocol's messages")
    one = simple(b"Sleep", (b"name", 1, 9), (b"wake", 1, 4))
    yield rejected(message_set(one), "no_set", "b.proto: Sleep.wake: number of a later field")
    sleep = simple(b"Sleep")
    yield rejected(message_set(sleep, sleep), "no_set", "b.proto: Sleep: a second message of this name")
    yield rejected(few.set(), "no_rename", "A=B: there is no such message here", b"A=B\n")
    nobody = "Nobody=SleepCommand"
    yield rejected(few.set(), "no_rename", f"{nobody}: there is no such message there", nobody.encode())
    yield rejected(few.set(), "no_rename", "WaitMessage is not THEIRS=OURS", b"WaitMessage")
    yield rejected(few.set(), "no_rename", "the renames are not UTF-8", b"\xff=a")


def paths():
    return [FILE]


def files():
    said, text = set(), HEAD
    for line in sections():
        # a message without fields is drawn more than once
        if line not in said:
            said.add(line)
            text += line
    return {FILE: text}
