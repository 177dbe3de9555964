"""The records of the description as the generators of typed messages take them: what has a name, a kind and a presence,
and nothing of how it is encoded. A binding gives the library the numbers of fields and their kinds, and knows no more.
"""
import dataclasses
import functools
from typing import List, Optional

from .calls_data import constants, kinds
from .model import OneOf, camel, members_of
from .proto import description, earlier, enums, schemas, typed

# The kinds of fields, as the calls name them.
KINDS = {
    "u32": "FIELD_UINT32",
    "u64": "FIELD_UINT64",
    "bool": "FIELD_BOOL",
    "enum": "FIELD_ENUM",
    "text": "FIELD_STRING",
    "bytes": "FIELD_BYTES",
    "message": "FIELD_MESSAGE",
}

# Texts of reasons that are not their names.
TEXTS = {
    "SEVERAL_MEMBERS": "several members of a oneof",
    "NOT_UTF8": "not UTF-8",
    "WRONG_KIND": "wrong kind of value",
}


@functools.cache
def kind_numbers():
    """The number of each kind, as the calls have it."""
    by_name = {name: number for number, _, name, _ in constants(listed_kinds("field"))}
    return {kind: by_name[name] for kind, name in KINDS.items()}


@functools.cache
def reasons():
    """Why a table of fields is rejected: the names, what they mean, and a few words for each."""
    listed = [(number, name, said) for number, _, name, said in constants(listed_kinds("writing")) if number > 0]
    assert [number for number, _, _ in listed] == list(range(1, len(listed) + 1))
    return [(name, said, TEXTS.get(name, name.lower().replace("_", " "))) for _, name, said in listed]


def listed_kinds(name):
    return next(entry for entry in kinds() if entry["kinds"] == name)


@dataclasses.dataclass
class TypedField:
    """A field: its name, its number, its kind, and `shape`, which is plain, optional, repeated or member; the record or
    the enum that it holds; what the description says of it."""

    name: str
    number: int
    kind: str
    shape: str
    record: Optional[str]
    enum: Optional[str]
    comment: str


@dataclasses.dataclass
class TypedOneOf:
    """A oneof: its name, its members, and what the description says of it."""

    name: str
    members: List[TypedField]
    comment: str

    def told_apart(self, classes):
        """Whether the members have classes of their own, by the classes that a language has for kinds."""
        found = [field.record or classes[field.kind] for field in self.members]
        return len(found) == len(set(found))


@dataclasses.dataclass
class Record:
    """A record: its name, the number of its schema, its rows (fields and oneofs) in the order of the description, what
    that says of it; and the name and the code of the type whose message it is, if it is one, and the version before
    which it is, if the type has another one since."""

    name: str
    schema: int
    rows: list
    comment: str
    type_name: Optional[str]
    code: Optional[int]
    before_version: Optional[int]

    def fields(self):
        """All fields, the members of oneofs among them."""
        return [field for row in self.rows for field in (row.members if isinstance(row, TypedOneOf) else [row])]

    def is_message(self):
        """Whether it is the message of a type at the last version."""
        return self.code is not None and self.before_version is None


@dataclasses.dataclass
class Enum:
    """An enum: its name, its values with their numbers and what the description says of each, and what it says of the
    enum."""

    name: str
    values: list
    comment: str


def wrapper(record, field):
    """The class of a oneof's member that has no class of its own."""
    return f"{record.name}{camel(field.name)}"


def field_of(field, is_member):
    shape = "member" if is_member else "optional" if field.presence == "message" else field.presence
    return TypedField(field.name, field.number, field.kind, shape, field.message, field.enum, text(field.comment))


def text(comment):
    return " ".join((comment or "").split())


@functools.cache
def records():
    """The records by the numbers of their schemas."""
    of_type = {message.name: message for message in typed()}
    before = {message.name: (message, last) for message, last in earlier()}
    found = []
    for message in schemas():
        rows = []
        for row in message.rows:
            if isinstance(row, OneOf):
                rows.append(
                    TypedOneOf(row.name, [field_of(member, True) for member in members_of(row)], text(row.comment))
                )
            else:
                rows.append(field_of(row, False))
        last = before[message.name][1] if message.name in before else of_type.get(message.name)
        found.append(
            Record(
                message.name,
                message.schema,
                rows,
                text(message.comment),
                last.type_name() if last else None,
                last.code if last else None,
                message.before_version,
            )
        )
    return found


@functools.cache
def messages():
    """The records that are the messages of types, by their codes."""
    return sorted((record for record in records() if record.is_message()), key=lambda record: record.code)


@functools.cache
def enumerations():
    """The enums of the description."""
    described = {enum.name: enum for enum in description().enums}
    return [
        Enum(name, [(value, number, text(described[name].said.get(value))) for value, number in values],
             text(described[name].comment))
        for name, values in enums().items()
    ]
