"""The dissector for Wireshark, share/wireshark/pendratsoa.lua: the tables of the description, and then wireshark.lua,
which is hand-written and reads items and payloads by them."""
import json
import pathlib

from . import calls_data, forms, missing, proto, renumbered  # noqa: F401

ABOUT = "The dissector for Wireshark."
SOURCE = "proto/journal.proto, and tools/generators/wireshark.lua"

PATH = "share/wireshark/pendratsoa.lua"
ENGINE = pathlib.Path(__file__).with_name("wireshark.lua")

MEDIA_TYPE = "application/vnd.restate.invocation.v"

HEAD = """\
-- For Wireshark and tshark: streams over HTTP/2 by their media types, and over TCP by Decode As. Its page is
-- docs/WIRESHARK of the documentation.
"""


def row(field):
    """A field as the dissector reads it: its number, its name and its kind, after a star if it is a list."""
    return f"{field.number} {field.name} {'*' if field.presence == 'repeated' else ''}{kind_of(field)}"


def kind_of(field):
    names = {kind: name for name, kind in forms.SCALARS.items()}
    return field.message or field.enum or names[field.kind]


def table(name, entries):
    """A table of Lua, with one line per entry."""
    return f"local {name} = {{\n" + "".join(f"  {entry},\n" for entry in entries) + "}\n"


def schemas():
    """The rows of each message, each row in a line of its own."""
    for message in proto.schemas():
        rows = [f'"{row(field)}; "' for field in proto.fields_of(message)]
        yield f"{message.name} =" + ("\n    " + " ..\n    ".join(rows) if rows else ' ""')


def enums():
    for name, values in proto.enums().items():
        named = ", ".join(f"[{number}] = {json.dumps(value)}" for value, number in values)
        yield f"{name} = {{ {named} }}"


def files():
    types = proto.typed()
    earlier = [message for message, _ in proto.earlier()]
    text = HEAD + f'local MEDIA_TYPE = "{MEDIA_TYPE}"\n'
    numbers = {
        "FIRST_VERSION": forms.LATER_VERSIONS.start - 1,
        "LAST_VERSION": forms.LATER_VERSIONS.stop - 1,
        # as the programs take it without --protocol: the last one that is not this project's own
        "USUAL_VERSION": renumbered.SKIPPED_FROM - 1,
        "SKIPPED_FROM": renumbered.SKIPPED_FROM,
        "EARLIER_BEFORE": max(message.before_version for message in earlier),
        "FIRST_CUSTOM": proto.COMMANDS.start,
        # the last level of messages that is read
        "DEEPEST": calls_data.described()["levels"],
    }
    text += "".join(f"local {name} = {number}\n" for name, number in numbers.items())
    text += "\n-- The fields of each message: number, name and kind, with a star before the kind of a list.\n"
    text += table("SCHEMAS", schemas())
    text += table("ENUMS", enums())
    text += table("TYPES", (f'[0x{one.code:04X}] = "{one.type_name()}"' for one in types))
    text += table("MESSAGES", (f'[0x{one.code:04X}] = "{one.name}"' for one in types))
    text += "-- The messages that types have before version " + f"{numbers['EARLIER_BEFORE']}.\n"
    text += table("EARLIER", (f'[0x{one.code:04X}] = "{one.name}"' for one in earlier))
    return {PATH: text + ENGINE.read_text(encoding="utf-8")}


def paths():
    return [PATH]
