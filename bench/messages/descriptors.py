#!/usr/bin/env python3
"""Writes what the other sides of bench/messages.sh need of each schema, its descriptor and its prototype:
descriptors.py FOLDER. The schemas are those of proto/journal.proto, by tools/generators."""
from __future__ import annotations

import pathlib
import re
import sys

sys.dont_write_bytecode = True
sys.path.insert(0, str(pathlib.Path(__file__).resolve().parents[2] / "tools"))

from generators.typed_model import records  # noqa: E402

# The schemas of which fields are read.
READ = {
    "SET_STATE_COMMAND": "SetStateCommandMessage",
    "CALL_COMMAND": "CallCommandMessage",
    "CALL_COMPLETION": "CallCompletionNotificationMessage",
    "START": "StartMessage",
}


def lower(name: str) -> str:
    """A record's name as protobuf-c has it in lower case."""
    return re.sub(r"(?<=[a-z0-9])(?=[A-Z])", "_", name).lower()


def main(folder: pathlib.Path) -> None:
    numbers = {record.name: record.schema for record in records()}
    known = "".join(f"    {name} = {numbers[record]},\n" for name, record in READ.items())
    known = f"enum {{\n{known}    SCHEMAS = {len(numbers)}\n}};\n\n"
    text = '#include "peer.pb-c.h"\n\n' + known + "static const ProtobufCMessageDescriptor *const descriptors[] = {\n"
    text += "".join(f"    &pendratsoa__journal__{lower(record.name)}__descriptor,\n" for record in records()) + "};\n"
    (folder / "descriptors_c.h").write_text(text)
    text = '#include "peer.pb.h"\n\nnamespace pb = pendratsoa::journal;\n\n' + known
    text += "static const google::protobuf::Message *const prototypes[] = {\n"
    text += "".join(f"    &pb::{record.name}::default_instance(),\n" for record in records()) + "};\n"
    (folder / "descriptors_cc.h").write_text(text)


if __name__ == "__main__":
    main(pathlib.Path(sys.argv[1]))
