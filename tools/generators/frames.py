"""The impls by which records and oneofs are appended from their front, and messages to buffers, of
crates/shared_core_frames."""

from . import laid_out
from . import missing_rt as missing  # noqa: F401
from .forms import bound
from .proto import OneOf, camel, fields_of, messages, snake
from .records import crate_of, shared_oneofs

ABOUT = "What appends records and messages to buffers."
SOURCE = "proto/journal.proto"

FOLDER = "crates/shared_core_frames/src"


def table():
    return {message.name: message for message in messages()}


def has_bytes(name, within=()):
    """Whether a message has a `bytes` field, or one that is nested in it does."""
    return name not in within and any(
        field.kind == "bytes" or (field.message and has_bytes(field.message, (*within, name)))
        for field in fields_of(table()[name])
    )


def written():
    """The messages that are written, and those that are nested in them, in their order."""
    names = [message.name for message in messages() if message.code is not None and not message.before_version]
    for name in names:
        names += [field.message for field in fields_of(table()[name]) if field.message and field.message not in names]
    return [message for message in messages() if message.name in names]


def member_has_bytes(member):
    return member.kind == "bytes" or bool(member.message and has_bytes(member.message))


def oneofs():
    """The enums of oneofs in messages with bytes: crate, module, name, and the oneof; a shared one comes once."""
    found = []
    for crate in dict.fromkeys(crate_of(message) for message in messages()):
        homes = {}
        for module, enum, _, oneof, users in shared_oneofs(crate, table()):
            homes.update({user: (module, enum, oneof) for user in users})
        for message in written():
            if crate_of(message) != crate or not has_bytes(message.name):
                continue
            for row in message.rows:
                if isinstance(row, OneOf):
                    own = (snake(message.name), camel(row.name), row)
                    module, enum, oneof = homes.get((message.name, row.name), own)
                    if (crate, module, enum) not in [entry[:3] for entry in found]:
                        found.append((crate, module, enum, oneof))
    return found


def heading(text, uses):
    return f"//! {text}\n\n" + "".join(f"use {use};\n" for use in sorted(uses)) + "\n"


def oneofs_text():
    uses = {"crate::fields::AppendOneOf", "crate::sink::PayloadSink", "shared_core_codec::error::EncodingError"}
    code = []
    for crate, module, enum, oneof in oneofs():
        uses.add(f"{crate}::{module}")
        name = f"{module}::{enum}"
        if not any(member_has_bytes(member) for member in oneof.members):
            code.append(f"impl AppendOneOf for {name} {{}}\n")
            continue
        uses.add("crate::value::AppendValue")
        arms = "".join(
            f"            {name}::{camel(member.name)}({bound(member)}) => "
            f"{bound(member)}.append_value({member.number}, out),\n"
            for member in oneof.members
        )
        code.append(
            f"impl AppendOneOf for {name} {{\n"
            "    fn append_member<S: PayloadSink>(&self, out: &mut S) -> Result<(), EncodingError> {\n"
            f"        match self {{\n{arms}        }}\n    }}\n}}\n"
        )
    return heading("Members of oneofs, appended from their front.", uses) + "\n".join(code)


def records_text():
    uses = {
        "crate::encodable_message::PlainMessage",
        "crate::record::AppendRecord",
        "crate::sink::PayloadSink",
        "shared_core_codec::error::EncodingError",
    }
    code, presences = [], set()
    for message in written():
        name = message.name
        uses.add(f"{crate_of(message)}::{snake(name)}::{name}")
        # what differs by version is written by hand
        if message.code is not None and not message.differs_by_version:
            code.append(f"impl PlainMessage for {name} {{}}\n")
        if not has_bytes(name):
            code.append(f"impl AppendRecord for {name} {{}}\n")
            continue
        lines = []
        for row in message.rows:
            if isinstance(row, OneOf):
                presence, at = "oneof", ""
            else:
                presence = {"message": "optional"}.get(row.presence, row.presence)
                at = f"{row.number}, "
            presences.add(presence)
            lines.append(f"{presence}(out, {at}&self.{row.name})")
        body = "".join(f"        {line}?;\n" for line in lines[:-1]) + f"        {lines[-1]}\n"
        code.append(
            f"impl AppendRecord for {name} {{\n"
            "    fn append_rows<S: PayloadSink>(&self, out: &mut S) -> Result<(), EncodingError> {\n"
            f"{body}    }}\n}}\n"
        )
    uses.add(f"crate::fields::{{{', '.join(sorted(presences))}}}")
    return heading("Records, appended from their front, and those that are messages.", uses) + "\n".join(code)


def texts():
    return {
        f"{FOLDER}/oneofs.rt": oneofs_text(),
        f"{FOLDER}/records.rt": records_text(),
    }


def paths():
    return list(texts())


def files():
    return laid_out(texts())
