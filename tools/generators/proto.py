"""The messages of proto/journal.proto, the one description of the protocol: with their fields, in order, the comments
above them, and their options, which proto/options.proto declares.

protoc reads the file. What it read last is in proto/journal.json, for a machine without protoc.
"""
import functools
import hashlib
import json
import pathlib
import shutil
import subprocess
import tempfile

from . import ROOT, Refused, descriptors, rules
from .forms import HAND_WRITTEN, SCALARS, TEMPLATE  # noqa: F401
from .model import (  # noqa: F401
    COMMANDS,
    NOTIFICATIONS,
    CommandType,
    Field,
    Message,
    OneOf,
    camel,
    fields_of,
    json_name,
    members_of,
    numbers,
    schema_name,
    snake,
)

PROTO = ROOT / "proto" / "journal.proto"
OPTIONS = ROOT / "proto" / "options.proto"
READ = ROOT / "proto" / "journal.json"
SOURCE = "proto/journal.proto"


def refuse(text, line=None):
    """Says what is wrong with the description, at a line of it if that is known, and ends the program."""
    raise Refused([f"{SOURCE if line is None else f'{SOURCE}:{line}'}: {text}"])


@functools.cache
def without_protoc():
    """What protoc lacks here to read the description, or None: options.proto imports protobuf's own descriptor.proto.
    What else is wrong it says where the description is read."""
    if not shutil.which("protoc"):
        return "there is no protoc (protobuf-compiler)"
    reading = ["protoc", f"--proto_path={OPTIONS.parent}", "--descriptor_set_out=/dev/null", OPTIONS.name]
    if b"google/protobuf/descriptor.proto: File not found" in subprocess.run(reading, capture_output=True).stderr:
        return "there is no google/protobuf/descriptor.proto (libprotobuf-dev), which protoc needs"
    return None


def digest():
    """What identifies the texts of the description."""
    return hashlib.sha256(PROTO.read_bytes() + OPTIONS.read_bytes()).hexdigest()


def read(path, folders=()):
    """What protoc reads in a text of the description, or its words, which say the line and the column."""
    try:
        return descriptors.read(path, folders)
    except Refused as refused:
        raise Refused(
            [problem.replace(f"protoc: {PROTO.name}:", f"{SOURCE}:") for problem in refused.problems]
        ) from None


@functools.cache
def description():
    """The description as protoc reads it; without protoc as it was read last, if it is still the same."""
    lacks = without_protoc()
    if lacks is None:
        return read(PROTO)
    known = json.loads(READ.read_text(encoding="utf-8")) if READ.exists() else {}
    if known.get("of") != digest():
        raise Refused([f"{SOURCE} is another one than {READ.relative_to(ROOT)} was read from, and {lacks}"])
    return descriptors.from_json(known["description"])


def of_text(text):
    """The messages of another text of the description, which protoc reads."""
    with tempfile.TemporaryDirectory() as work:
        place = pathlib.Path(work) / PROTO.name
        place.write_text(text, encoding="utf-8")
        return checked(read(place, [OPTIONS.parent]))


@functools.cache
def messages():
    """The messages of the file, in order; the rows of each by their numbers, a oneof at its least one."""
    return checked(description())


def checked(described):
    """The messages of a description that nothing is wrong with."""
    found = [message_of(message) for message in described.messages]
    rules.check(found, described)
    for message in found:
        for row in message.rows:
            if isinstance(row, OneOf):
                row.members.sort(key=lambda member: member.number)
        message.rows.sort(key=lambda row: min(numbers(row)))
    return found


def message_of(described):
    """A message with its rows, in the order of the file."""
    message = Message(described.name, described.comment, described.line, described.options)
    message.within = described.within
    oneofs = {}
    for oneof in described.oneofs:
        printed = {"printed": oneof.options.get("oneof_printed")}
        oneofs[oneof.name] = OneOf(oneof.name, oneof.comment, oneof.line, printed)
    for field in described.fields:
        if field.oneof:
            oneof = oneofs[field.oneof]
            if not oneof.members:
                message.rows.append(oneof)
            oneof.members.append(field_of(field))
        else:
            message.rows.append(field_of(field))
    return message


def field_of(described):
    """A field."""
    kind = described.kind if described.kind in ("enum", "message") else SCALARS.get(described.kind, "other")
    presence = described.label or ("message" if kind == "message" else "plain")
    type_name = described.type_name or described.kind
    field = Field(
        described.name,
        kind,
        type_name,
        described.number,
        presence,
        described.comment,
        described.line,
        described.options,
    )
    if described.json_name != json_name(described.name):
        field.json_name = described.json_name
    return field


@functools.cache
def enums():
    """The values of each enum, names with their numbers, by its name."""
    messages()
    return {enum.name: [(name, number) for name, number, _ in enum.values] for enum in description().enums}


@functools.cache
def schemas():
    """The messages by the numbers of their schemas, which are the places from 0 on."""
    return sorted(messages(), key=lambda message: message.schema)


@functools.cache
def typed():
    """The messages of the types, by their codes: of each type the one that the last version has."""
    return sorted(
        (message for message in messages() if message.code is not None and message.before_version is None),
        key=lambda message: message.code
    )


@functools.cache
def earlier():
    """The messages that a type has before a version, each with that of the last version."""
    last = {message.code: message for message in typed()}
    return [(message, last[message.code]) for message in messages() if message.before_version is not None]


@functools.cache
def command_types():
    """The command types in the order of the file, each with the message that it is sent as; last those that no message
    has."""
    found = {}
    for message in messages():
        if message.command is not None:
            found.setdefault(message.command.name, (message.command, message))
    for message in messages():
        if message.also_sent_for is not None:
            found[message.also_sent_for.name] = (message.also_sent_for, message)
    return list(found.values())
