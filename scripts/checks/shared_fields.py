"""Random messages by protobuf's own library, and what they are at other field numbers:

    shared_fields.py SET TABLE SEED COUNT FOLDER

The last file of the descriptor set SET describes messages by other numbers; TABLE is what `journal schema` prints of
it, which says the fields that both have. COUNT random messages are made of each type that it has. Below FOLDER are then
`all`, a stream of them; `shared`, one of the same messages without the fields that only the set has; and `lines`, what
protobuf prints of each of these, by the protocol's names. In `all` a message may also have a field that neither has.
"""
import pathlib
import random
import re
import sys

ROOT = pathlib.Path(__file__).resolve().parents[2]
sys.path.insert(0, str(ROOT / "tools"))

from google.protobuf import descriptor_pb2, descriptor_pool, json_format, message_factory  # noqa: E402
from google.protobuf.descriptor import FieldDescriptor  # noqa: E402

from generators import protobuf_dumps  # noqa: E402

# A row of the table of a field that both have: the message and the field, and the number there.
ROW = re.compile(r"(\w+)\.(\w+) +\d+ (?:\w+ )*\w+ +(\d+) (?:\w+ )*\w+ +(?:the same|renumbered)")


# A field of a number that no message has, as often as not.
UNKNOWN = [b"", b"\xfa\xff\xff\xff\x0f\x02\xff\xfe"]

# Values of the kinds that the protocol does not have.
FRACTIONS = FieldDescriptor.TYPE_DOUBLE, FieldDescriptor.TYPE_FLOAT


def scalar(chance, field):
    """A random value of a field that is not a message."""
    if field.type in FRACTIONS:
        return chance.choice([0.0, 1.5, -2.0])
    make = protobuf_dumps.SCALARS.get(field.type)
    return make(chance) if make else chance.choice([0, 1, 127, 2**31 - 1])


def fill_map(chance, target, entry):
    """Sets an entry of a map."""
    key, value = (entry.fields_by_name[name] for name in ("key", "value"))
    if value.message_type is None:
        target[scalar(chance, key)] = scalar(chance, value)
    else:
        target[scalar(chance, key)].SetInParent()


def fill(chance, message, deep=0):
    """Sets some fields of a message at random."""
    for field in message.DESCRIPTOR.fields:
        if chance.random() < 0.4:
            continue
        kind, target = field.message_type, getattr(message, field.name)
        if kind is not None and kind.GetOptions().map_entry:
            fill_map(chance, target, kind)
        elif field.label == FieldDescriptor.LABEL_REPEATED:
            for _ in range(chance.choice([1, 2, 5])):
                if kind is None:
                    target.append(scalar(chance, field))
                elif deep < 3:
                    fill(chance, target.add(), deep + 1)
        elif kind is None:
            setattr(message, field.name, scalar(chance, field))
        else:
            target.SetInParent()
            if deep < 3:
                fill(chance, target, deep + 1)


def names_of(table):
    """The protocol's names of the fields that both have, by the protocol's message and the number there."""
    found = {}
    for line in table.splitlines():
        row = ROW.fullmatch(line)
        if row:
            found[row[1], int(row[3])] = row[2]
    return found


def short(name):
    return name.removesuffix("Message").replace("_", "").lower()


class Shared:
    """Which fields of messages both have."""

    def __init__(self, names):
        self.names = names
        self.messages = {short(message): message for message, _ in names}

    def name_of(self, ours, field):
        """The protocol's name of a field of its message, or None."""
        return self.names.get((ours, field.number))

    def cleared(self, message, ours):
        """Removes the fields of a message that the protocol's does not have."""
        for field, value in message.ListFields():
            if self.name_of(ours, field) is None:
                message.ClearField(field.name)
            elif field.message_type is not None:
                nested = self.messages.get(short(field.message_type.name), "")
                for one in value if field.label == field.LABEL_REPEATED else [value]:
                    self.cleared(one, nested)

    def named(self, shown, kind, ours):
        """What protobuf prints of a message, by the names of the protocol's."""
        found = {}
        for field in kind.fields:
            if field.json_name in shown:
                value = shown[field.json_name]
                if field.message_type is not None:
                    nested = self.messages.get(short(field.message_type.name), "")
                    is_list = isinstance(value, list)
                    parts = [self.named(one, field.message_type, nested) for one in (value if is_list else [value])]
                    value = parts if is_list else parts[0]
                found[self.name_of(ours, field)] = value
        return found

    def line(self, message, ours):
        """The JSON of a message that has no other fields."""
        shown = json_format.MessageToDict(message, use_integers_for_enums=True)
        return protobuf_dumps.text_of(self.named(shown, message.DESCRIPTOR, ours))


def kinds_of(given):
    """The messages of the last file of a set, by their names."""
    pool = descriptor_pool.DescriptorPool()
    for file in given.file:
        pool.Add(file)
    package, factory = given.file[-1].package, message_factory.MessageFactory(pool)
    names = [message.name for message in given.file[-1].message_type]
    return {name: factory.GetPrototype(pool.FindMessageTypeByName(f"{package}.{name}")) for name in names}


def kind_of(kinds, name, code):
    """The message of a type, by its name in any form or by its code, or None."""
    return kinds.get(f"{name}Message") or kinds.get(name) or kinds.get(f"Type{code}")


def main():
    given, table, seed, count, folder = sys.argv[1:]
    kinds = kinds_of(descriptor_pb2.FileDescriptorSet.FromString(pathlib.Path(given).read_bytes()))
    shared = Shared(names_of(pathlib.Path(table).read_text()))
    chance = random.Random(int(seed))
    streams, lines = {"all": b"", "shared": b""}, ""
    for _ in range(int(count)):
        for name, code in protobuf_dumps.types(ROOT).items():
            kind = kind_of(kinds, name, code)
            if kind is None:
                continue
            message = kind()
            fill(chance, message)
            payload = message.SerializeToString() + chance.choice(UNKNOWN)
            streams["all"] += protobuf_dumps.frame(code, payload)
            shared.cleared(message, f"{name}Message")
            streams["shared"] += protobuf_dumps.frame(code, message.SerializeToString())
            lines += shared.line(message, f"{name}Message") + "\n"
    for name, stream in streams.items():
        pathlib.Path(folder, name).write_bytes(stream)
    pathlib.Path(folder, "lines").write_text(lines)


if __name__ == "__main__":
    main()
