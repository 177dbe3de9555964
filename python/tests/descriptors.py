"""Descriptor sets, as protoc writes them, of other field numbers, and what payloads are at these."""

import re

from pendratsoa import messages
from pendratsoa._records import Record

# the types of descriptor.proto, at the kinds of fields
TYPES = {1: 13, 2: 4, 3: 8, 4: 14, 5: 9, 6: 12, 7: 11}
REPEATED = 3


def varint(number):
    """A number as a varint."""
    out = bytearray()
    while number > 127:
        out.append(number & 127 | 128)
        number >>= 7
    return bytes((*out, number))


def block(number, content):
    """The record of bytes, or of a text or a number."""
    if isinstance(content, int):
        return varint(number << 3) + varint(content)
    data = content.encode() if isinstance(content, str) else content
    return varint(number << 3 | 2) + varint(len(data)) + data


def field(name, number, kind, label=1, type_name="", oneof=None, is_optional=False):
    """The descriptor of a field."""
    data = block(1, name) + block(3, number) + block(4, label) + block(5, kind)
    data += block(6, type_name) if type_name else b""
    data += block(9, oneof) if oneof is not None else b""
    data += block(10, re.sub(r"_+(.)", lambda found: found[1].upper(), name))
    return block(2, data + block(17, 1) if is_optional else data)


def message(name, *parts):
    """The descriptor of a message, of its fields and oneofs."""
    return block(4, block(1, name) + b"".join(parts))


def set_of(*messages, package="a", name="a.proto"):
    """A set of one file of these messages."""
    return block(1, block(1, name) + block(2, package) + b"".join(messages) + block(12, "proto3"))


# a state that is set, in another order, with a field that only this set has
SMALL = set_of(
    message("SetStateCommandMessage", field("extra", 9, 12), field("key", 4, 12), field("name", 1, 9),
            field("value", 2, 11, type_name=".a.Value")),
    message("Value", field("content", 3, 12)),
)


def renumbered(number):
    """The number that a field of the protocol has in the set of all messages."""
    return 2000 - number


def _message_of(record):
    """The descriptor of a record's message at other numbers."""
    rows = sorted(record._by_number.values(), key=lambda row: -row.number)
    # those of fields that may be absent come last
    oneofs = list(dict.fromkeys(row.name for row in rows if row.shape == "member"))
    oneofs += [f"_{row.name}" for row in rows if row.shape == "optional"]
    parts = []
    for row in rows:
        is_record = isinstance(row.holds, type) and issubclass(row.holds, Record)
        type_name = f".a.{row.holds.__name__}" if is_record else ".a.Enum" if row.holds else ""
        oneof = {"member": row.name, "optional": f"_{row.name}"}.get(row.shape)
        place = None if oneof is None else oneofs.index(oneof)
        label = REPEATED if row.shape == "repeated" else 1
        number, is_optional = renumbered(row.number), row.shape == "optional"
        parts.append(field(row.member or row.name, number, TYPES[row.kind], label, type_name, place, is_optional))
    return message(record.__name__, *parts, *(block(8, block(1, oneof)) for oneof in oneofs))


# each message of the protocol, at other numbers
ALL = set_of(
    *map(_message_of, messages.RECORDS),
    block(5, block(1, "Enum") + block(2, block(1, "NONE") + block(2, 0))),
)


def records_of(payload):
    """The number, the wire type and the value of each record of a payload that has only varints and bytes."""
    at = 0

    def number():
        nonlocal at
        value = shift = 0
        while True:
            byte = payload[at]
            at += 1
            value |= (byte & 127) << shift
            shift += 7
            if byte < 128:
                return value

    while at < len(payload):
        key = number()
        value = number()
        if key & 7 == 2:
            at += value
            value = payload[at - value : at]
        yield key >> 3, value


def at_other_numbers(record, payload):
    """A canonical payload of a record at the numbers of the set of all messages, in the order in which these come."""
    found = []
    for number, value in records_of(payload):
        row = record._by_number[number]
        if isinstance(value, bytes) and isinstance(row.holds, type) and issubclass(row.holds, Record):
            value = at_other_numbers(row.holds, value)
        # a oneof comes where the first of its members would
        place = min(renumbered(other.number) for other in record._by_name[row.name])
        found.append((place, block(renumbered(number), value)))
    return b"".join(data for _, data in sorted(found, key=lambda one: one[0]))
