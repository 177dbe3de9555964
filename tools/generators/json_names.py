"""The names that JSON has for the fields of the protocol's messages, in the order of the schemas of shared_core_codec:
the table that the contracts of shared_core_json cite, and that of the program, which is proved to be the same.
"""
from . import bracketed, laid_out
from . import missing_rt as missing  # noqa: F401
from .proto import fields_of, json_name, schemas

ABOUT = "The names of fields in JSON, for contracts and for the program."
SOURCE = "proto/journal.proto"

NAMES = """\
-- The names that the fields of the protocol's messages have in JSON: those of proto/journal.proto in lower camel case.
use Rattle.std.specs.Prelude.{ℕ, List, [], ◌∷◌, codes}

-- The numbers and names of the fields of each schema, in the order of the table.
abbrev pub names : List (List (ℕ × List ℕ))
names =
"""

SCHEMAS = """\
//! The names of the fields of each schema, in the order of the table.

use crate::names::Name;

/// The number and the name in JSON of each field of each schema.
"""


def texts():
    """Both tables, not yet laid out."""
    order = schemas()
    names = []
    rows = []
    for message in order:
        name, fields = message.name, fields_of(message)
        pairs = bracketed([f'({field.number}, codes "{json_name(field.name)}")' for field in fields])
        names.append(f"    -- {name}\n    {'∷ ' if names else ''}{pairs}\n")
        listed = [f'Name({field.number}, "{json_name(field.name)}")' for field in fields]
        rows.append(f"    // {name}\n    &[{', '.join(listed)}],\n")
    return {
        "crates/shared_core_json/specs/Names.antt": NAMES + "".join(names) + "    ∷ []\n",
        "crates/shared_core_json/src/name_table.rt": (
            f"{SCHEMAS}pub static NAMES: [&[Name]; {len(order)}] = [\n" + "".join(rows) + "];\n"
        ),
    }


def paths():
    return list(texts())


def files():
    return laid_out(texts())
