"""Payloads from the names of fields: the numbers are those of the description."""
from .proto import OneOf, fields_of, messages, typed

TABLE = {message.name: message for message in messages()}


def varint(number):
    """The shortest encoding of a number."""
    out = bytearray()
    while number >= 128:
        out.append(number % 128 + 128)
        number //= 128
    return bytes(out) + bytes([number])


def lengthy(number, content):
    """A record of a field with a length."""
    return varint(8 * number + 2) + varint(len(content)) + content


def field_of(message, name):
    """A field by its name."""
    return next(field for field in fields_of(TABLE[message]) if field.name == name)


def value(field, held):
    """The record of one value; a message is given as its payload or by its fields. Negative numbers have 64 bits."""
    if isinstance(held, dict):
        held = payload(field.message, **held)
    if isinstance(held, str):
        held = held.encode()
    return lengthy(
        field.number, held
    ) if isinstance(held, bytes) else varint(8 * field.number) + varint(held % (1 << 64))


def record(message, name, held):
    """The record of one value of a field."""
    return value(field_of(message, name), held)


def payload(message, /, **values):
    """The canonical payload of a message of which these fields are present, the rows in the order of their numbers."""
    out = b""
    for row in TABLE[message].rows:
        for field in row.members if isinstance(row, OneOf) else [row]:
            if field.name not in values:
                continue
            held = values[field.name]
            if field.presence == "repeated" and field.kind == "u32":
                out += lengthy(field.number, b"".join(map(varint, held))) if held else b""
            elif field.presence == "repeated":
                out += b"".join(value(field, one) for one in held)
            else:
                out += value(field, held)
    return out


def unknown(least, *names):
    """The first number from one on that no field of these messages has."""
    taken = {field.number for name in names for field in fields_of(TABLE[name])}
    return next(number for number in range(least, 19000) if number not in taken)


def code(type_name):
    """The code of a type."""
    return next(message.code for message in typed() if message.type_name() == type_name)


def struct(name, rows):
    """A struct as it is printed."""
    return f"{name} {{ {', '.join(rows)} }}" if rows else name


def absent(row):
    """What is printed of a row that is not present."""
    if isinstance(row, OneOf) or row.presence in ("optional", "message"):
        return "None"
    if row.presence == "repeated":
        return "[]"
    return {"bool": "false", "text": '""', "bytes": 'b""'}.get(row.kind, "0")
