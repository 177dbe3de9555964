"""The names of the values of the protocol's enums, by the fields that have one: the table that the contracts of
shared_core_json_reader cite, and that of the program, which is proved to be the same.
"""
from . import laid_out
from . import missing_rt as missing  # noqa: F401
from .proto import enums, fields_of, schemas

ABOUT = "The names of the values of enums in JSON, for contracts and for the program."
SOURCE = "proto/journal.proto"

VALUES = """\
-- The names that the values of the protocol's enums have: those of proto/journal.proto.
use Rattle.std.specs.Prelude.{ℕ, List, [], ◌∷◌, codes}

-- A field with an enum: its schema, its number, and the names and the numbers of the enum's values.
pub record EnumField : Type 0 where
  pub schema : ℕ
  pub number : ℕ
  pub values : List (List ℕ × ℕ)

-- The fields with an enum.
abbrev pub enum_fields : List EnumField
enum_fields =
"""

ENUM_FIELDS = """\
//! The names of the values of enums, by the fields that have one.

use crate::rows::{EnumField, EnumValue};

/// The fields with an enum, in the order of the schemas.
"""


def texts():
    """Both tables, not yet laid out."""
    values = []
    fields = []
    for message in schemas():
        for field in fields_of(message):
            if field.kind != "enum":
                continue
            about = f"{field.name} of {message.name}, the enum {field.enum}"
            names = "".join(f'(codes "{name}", {number}) ∷ ' for name, number in enums()[field.enum])
            values.append(
                f"    -- {about}\n"
                f"    {'∷ ' if values else ''}"
                f"record {{ schema = {message.schema}; number = {field.number}; values = {names}[] }}\n"
            )
            listed = ", ".join(f'EnumValue("{name}", {number})' for name, number in enums()[field.enum])
            fields.append(
                f"    // {about}\n"
                f"    EnumField {{ schema: {message.schema}, number: {field.number}, values: &[{listed}] }},\n"
            )
    return {
        "crates/shared_core_json_reader/specs/EnumValues.antt": (
            VALUES + "".join(values) + f"    {'∷ ' if values else ''}[]\n"
        ),
        "crates/shared_core_json_reader/src/enum_values.rt": (
            f"{ENUM_FIELDS}pub static ENUM_FIELDS: [EnumField; {len(fields)}] = [\n" + "".join(fields) + "];\n"
        ),
    }


def paths():
    return list(texts())


def files():
    return laid_out(texts())
