"""The rows of each schema by which the program reads payloads, in the order of the schemas of shared_core_codec.
The rows are proved to be those of the schemas.
"""
from . import laid_out
from . import missing_rt as missing  # noqa: F401
from .proto import OneOf, schemas
from .tables import least

ABOUT = "The rows of schemas, for the program."
SOURCE = "proto/journal.proto"

KINDS = {"u32": "U32", "u64": "U64", "bool": "Boolean", "enum": "Enumeration", "text": "Text", "bytes": "ByteString"}

PATH = "crates/shared_core_codec/src/schemas.rt"

SCHEMAS = """\
//! The rows of each schema, in the order of the table.

use crate::rows::{Field, Kind, Row};

/// A field by its number and its kind. It is a macro, since the value of a static calls no function.
macro_rules! field {
    ($number:literal, $kind:expr) => {
        Field {
            number: $number,
            kind: $kind,
        }
    };
}

/// The rows of each schema: of each field its number and its kind, by its presence.
"""


def field_text(field, places):
    """A field: its number and its kind."""
    kind = f"Kind::Message({places[field.message]})" if field.kind == "message" else f"Kind::{KINDS[field.kind]}"
    return f"field!({field.number}, {kind})"


def row_text(row, places):
    """A row. Each message field is an optional one."""
    if isinstance(row, OneOf):
        return f"Row::OneOf(&[{', '.join(field_text(field, places) for field in row.members)}])"
    presence = {"plain": "Plain", "repeated": "Repeated"}.get(row.presence, "Optional")
    return f"Row::{presence}({field_text(row, places)})"


def text():
    """The table, not yet laid out."""
    order = schemas()
    places = {message.name: message.schema for message in order}
    rows = ""
    for message in order:
        listed = ", ".join(row_text(row, places) for row in sorted(message.rows, key=least))
        rows += f"    // {message.name}\n    &[{listed}],\n"
    return f"{SCHEMAS}pub static SCHEMAS: [&[Row]; {len(order)}] = [\n{rows}];\n"


def paths():
    return [PATH]


def files():
    return laid_out({PATH: text()})
