"""The records of proto/journal.proto as Rattle source, as a caller in C has them: structs of slices, whose members are
those of the structs in pendratsoa_messages.h, in the same order. A record within itself is none of them, since no
struct that leads back to itself can be passed to Rattle; nor is one that holds such a record.
"""
import textwrap

from . import laid_out
from .proto import schema_name, snake
from .records import missing  # noqa: F401
from .typed_c import by_name, has_content, is_borrowed
from .typed_model import TypedOneOf, records

ABOUT = "The records that a caller in C has, in Rattle."
SOURCE = "proto/journal.proto"

CRATE = "crates/shared_core_borrowed"

# By kind: the type of a field, the view of what it holds, and the name of its kind in schemas.
TYPES = {
    "u32": "u32",
    "u64": "u64",
    "bool": "bool",
    "enum": "i32",
    "text": "Text<'a>",
    "bytes": "Content<'a>",
}
KINDS = {"u32": "U32", "u64": "U64", "bool": "Boolean", "enum": "Enumeration", "text": "Text", "bytes": "ByteString"}

# What is known of a number that no member of a oneof has.
NO_MEMBER = "crate::proofs::Members::no_member_"


def borrowed():
    return [record for record in records() if is_borrowed(record)]


def has_slices(record):
    """Whether a struct of it borrows."""
    return any(field.shape == "repeated" or is_slice(field) for field in record.fields())


def is_slice(field):
    """Whether what a field holds borrows, once."""
    return field.kind in ("text", "bytes") or bool(field.record) and has_slices(by_name()[field.record])


def with_lifetime(name, is_borrowing):
    return f"{name}<'a>" if is_borrowing else name


def comment(text, indent=""):
    return "".join(f"{indent}/// {line}\n" for line in textwrap.wrap(text, 116 - len(indent)))


class Source:
    """The file of a record, with the names that it uses."""

    def __init__(self, record):
        self.record = record
        self.uses = {"crate::measure::Measure", "crate::record::Record"}
        self.presences = set()
        self.values = set()
        self.views = set()
        self.kinds = set()
        self.prelude = set()

    def type_of(self, field):
        """The type of what a field holds."""
        if field.record:
            record = by_name()[field.record]
            self.uses.add(f"crate::records::{snake(field.record)}::{field.record}")
            return with_lifetime(field.record, has_slices(record))
        if field.kind in ("text", "bytes"):
            self.uses.add(f"crate::value::{TYPES[field.kind].partition('<')[0]}")
        return TYPES[field.kind]

    def view(self, field):
        """How what a field holds is a part."""
        if field.record:
            self.views.add("message_part")
            held = with_lifetime(field.record, has_slices(by_name()[field.record]))
            return f"(message_part ⟦<{held} as Record>⟧.parts)"
        if field.kind in ("u32", "u64"):
            self.values.add("Number")
            return "Number"
        if field.kind in ("bool", "enum"):
            view = {"bool": "boolean_part", "enum": "enum_part"}[field.kind]
            self.views.add(view)
            return view
        self.values.add("Bytes")
        return None

    def part(self, field, value):
        """The part that a value is."""
        view = self.view(field)
        return f"Bytes {value}.bytes.now" if view is None else f"{view} {value}"

    def element_view(self, field):
        return self.view(field) or "(λ text. Bytes text.bytes.now)"

    def kind(self, field):
        if field.record:
            self.kinds.add("Message")
            return f"Message tables.{schema_name(field.record)}"
        self.kinds.add(KINDS[field.kind])
        return KINDS[field.kind]


# What is in a record without fields, since a C struct has a member at least.
NOTHING = "    /// Not looked at.\n    pub nothing: u8,\n"


def value_of(field):
    """What a record without fields is, which no struct has room for."""
    return f"{field.record} {{ nothing: 0 }}"


def oneof_name(row):
    return "".join(word.capitalize() for word in row.name.split("_"))


def oneof(source, row):
    """The struct of a oneof's members, and its impl."""
    source.uses |= {"crate::oneof::Members", "crate::value::FieldValue"}
    source.values |= {"Absent", "Member"}
    source.prelude |= {"[]", "◌∷◌", "nat_eq", "if◌then◌else◌"}
    held = [field for field in row.members if has_content(field)]
    name, is_borrowing = oneof_name(row), any(map(is_slice, held))
    members = "".join(
        comment(field.comment, "    ") + f"    pub {field.name}: {source.type_of(field)},\n" for field in held
    )
    part, sizes, writes, kinds = "Member case Absent", "", "", []
    for field in reversed(row.members):
        view = source.part(field, f"members.{field.name}" if has_content(field) else f"(record {{ nothing = 0 }})")
        part = f"if nat_eq case {field.number} then Member {field.number} ({view})\n        else {part}"
    for field in row.members:
        if not has_content(field):
            source.type_of(field)
        place = f"self.{field.name}" if has_content(field) else value_of(field)
        sizes += f"            {field.number} => {place}.measure_value(measure, {field.number}),\n"
        writes += f"            {field.number} => {place}.write_value(out, end, {field.number}),\n"
        kinds.append(f"({field.number}, {source.kind(field)})")
    generics = "<'a>" if is_borrowing else ""
    return (
        comment(f"The members of the oneof {row.name}.")
        + f"#[repr(C)]\n#[derive(Drop)]\npub struct {name}{generics} {{\n{members}}}\n\n"
        + f"impl{generics} Members for {name}{generics} {{\n"
        + f"    ghost members = {{ {' ∷ '.join(kinds)} ∷ [] }};\n\n"
        + f"    ghost part = {{ λ case members. if nat_eq case 0 then Absent\n        else {part} }};\n\n"
        + f"    #[tactic(auto, using({NO_MEMBER}size))]\n"
        + "    fn measure(&self, case: u32, measure: &mut Measure) {\n        let _ = measure.size.total();\n"
        + f"        match case {{\n            0 => {{}}\n{sizes}            _ => measure.check(false),\n"
        + "        }\n    }\n\n"
        + f"    #[tactic(auto, using({NO_MEMBER}before, {NO_MEMBER}length))]\n"
        + "    fn encode_back(&self, case: u32, out: &mut [u8], end: usize) -> usize {\n        match case {\n"
        + f"{writes}            _ => end,\n        }}\n    }}\n}}\n\n"
    ), is_borrowing


def row_lines(source, row):
    """Of a row: the members of the struct, the part, and the lines that measure and write it."""
    name, at = row.name, f"message.{row.name}"
    text = comment(row.comment, "    ")
    if isinstance(row, TypedOneOf):
        source.presences.add("oneof")
        source.uses.add("crate::oneof::Members")
        members, is_borrowing = oneof(source, row)
        enum = with_lifetime(oneof_name(row), is_borrowing)
        text = f"    /// Which member of {name} is there, as its number, or 0.\n    pub {name}_case: u32,\n" + text
        text += f"    pub {name}: {enum},\n"
        part = f"⟦<{enum} as Members>⟧.part {at}_case {at}"
        size = f"self.{name}.measure(self.{name}_case, measure)"
        return text, part, size, f"self.{name}.encode_back(self.{name}_case, out, end)", members
    number = row.number
    if row.shape == "repeated":
        source.views.add("elements_part")
        presence = "packed" if row.kind == "u32" else "repeated"
        source.presences.add(presence)
        text += f"    pub {name}: &'a [{source.type_of(row)}],\n"
        part = f"elements_part {source.element_view(row)} {at}.now"
        return (
            text, part, f"{presence}::measure(measure, {number}, self.{name})",
            f"{presence}::write(out, end, {number}, self.{name})", "",
        )
    if row.shape == "optional":
        source.presences.add("optional")
        source.views.add("present_part")
        text = f"    /// Whether {name} is there.\n    pub has_{name}: bool,\n"
        if has_content(row):
            text += comment(row.comment, "    ") + f"    pub {name}: {source.type_of(row)},\n"
            place, seen = f"&self.{name}", at
        else:
            source.type_of(row)
            place, seen = f"&{value_of(row)}", "(record { nothing = 0 })"
        part = f"present_part message.has_{name} ({source.part(row, seen)})"
        return (
            text, part, f"optional::measure(measure, {number}, self.has_{name}, {place})",
            f"optional::write(out, end, {number}, self.has_{name}, {place})", "",
        )
    source.presences.add("plain")
    text += f"    pub {name}: {source.type_of(row)},\n"
    return (
        text, source.part(row, at), f"plain::measure(measure, {number}, &self.{name})",
        f"plain::write(out, end, {number}, &self.{name})", "",
    )


def record_file(record):
    source = Source(record)
    rows = [row_lines(source, row) for row in record.rows]
    members = "".join(text for text, *_ in rows) or NOTHING
    oneofs = "".join(text for *_, text in rows)
    generics = "<'a>" if has_slices(record) else ""
    value = "nil"
    source.values.add("nil")
    for _, part, *_ in reversed(rows):
        source.values.add("cons")
        value = f"cons ({part})\n        ({value})" if value != "nil" else f"cons ({part}) nil"
    sizes = "".join(f"        {size};\n" for _, _, size, *_ in rows)
    writes = [write for _, _, _, write, _ in rows]
    lines = "".join(f"        let end = {write};\n" for write in reversed(writes[1:]))
    lines += f"        {writes[0]}\n" if writes else "        end\n"
    unused = "" if rows else "_"
    binder = "message" if rows else "_"
    ghosts = []
    if source.prelude:
        ghosts.append(f"Rattle.std.specs.Prelude.{{{', '.join(sorted(source.prelude))}}}")
    if source.kinds:
        ghosts.append(f"Rattle.shared_core_wire.specs.Schema.{{{', '.join(sorted(source.kinds))}}}")
    ghosts.append(f"Rattle.shared_core_wire.specs.Value.{{{', '.join(sorted(source.values))}}}")
    ghosts.append("Rattle.shared_core_codec.specs.Table as tables")
    views = sorted(source.views - {"present_part"})
    if views:
        ghosts.append(f"Rattle.shared_core_codec.specs.FieldParts.{{{', '.join(views)}}}")
    if "present_part" in source.views:
        ghosts.append("Rattle.shared_core_borrowed.specs.Views.{present_part}")
    presences = sorted(source.presences - {"oneof"})
    uses = set(source.uses)
    if presences:
        uses.add(f"crate::{{{', '.join(presences)}}}" if len(presences) > 1 else f"crate::{presences[0]}")
    return (
        f"//! The record `{record.name}` of a caller in C.\n\n"
        + "".join(f"ghost use {ghost};\n" for ghost in ghosts)
        + "\n"
        + "".join(f"use {use};\n" for use in sorted(uses))
        + "\n"
        + oneofs
        + comment(record.comment)
        + f"#[repr(C)]\n#[derive(Drop)]\npub struct {record.name}{generics} {{\n{members}}}\n\n"
        + f"impl{generics} Record for {record.name}{generics} {{\n"
        + f"    ghost schema = {{ tables.{schema_name(record.name)} }};\n\n"
        + f"    ghost parts = {{ λ {binder}. {value} }};\n\n"
        + f"    fn measure(&self, {unused}measure: &mut Measure) {{\n{sizes}    }}\n\n"
        + f"    fn encode_back(&self, {unused}out: &mut [u8], end: usize) -> usize {{\n{lines}    }}\n}}\n"
    )


def call(record):
    """The C call that writes the payload of a record."""
    generics, held = ("<'a>", f"{record.name}<'a>") if has_slices(record) else ("", record.name)
    return (
        f"/// Writes the canonical payload of a {record.name}.\n"
        f"#[unsafe(no_mangle)]\npub extern \"C\" fn {encode_call(record)}{generics}(\n"
        f"    given: &{held},\n    out: &mut [u8],\n) -> i64\n"
        f"    ensures {{ Returns result (Writes (IsRecordPayload tables.{schema_name(record.name)}\n"
        f"        (⟦<{held} as Record>⟧.parts given.now)) out.old out.new) }}\n"
        "{\n    outcome_of(write_record(given, out))\n}\n"
    )


def encode_call(record):
    """The name of that call."""
    return f"journal_encode_{record.name}"


CALLS_HEAD = """\
//! The calls that write the payloads of records. pendratsoa_messages.h has their structs.
//!
//! Each returns how many bytes the payload has, and writes them if there is room for all of them. Errors, in order of
//! precedence: JOURNAL_MALFORMED if a text is not UTF-8 or the number of a oneof's member is that of none,
//! JOURNAL_TOO_LONG. None of them allocates.

ghost use Rattle.journal_c_api.specs.Outcomes.{Returns, Writes};
ghost use Rattle.journal_c_api.specs.Records.{IsRecordPayload};
ghost use Rattle.shared_core_codec.specs.Table as tables;

use journal_c_api::outcome::outcome_of;
use journal_c_api::records::write_record;
use shared_core_borrowed::record::Record;
"""


def calls_file():
    names = ", ".join(sorted(record.name for record in borrowed()))
    uses = f"use shared_core_borrowed::records::{{{names}}};\n"
    return f"{CALLS_HEAD}{uses}\n" + "\n".join(map(call, borrowed()))


def texts():
    """The files, not yet laid out."""
    modules = sorted(snake(record.name) for record in borrowed())
    found = {f"{CRATE}/src/records/{snake(record.name)}.rt": record_file(record) for record in borrowed()}
    found["crates/journal_ffi/src/records.rt"] = calls_file()
    found[f"{CRATE}/src/records.rt"] = "//! The records, a file for each.\n\n" + "".join(
        f"pub mod {module};\n" for module in modules
    )
    found[f"{CRATE}/src/records.rt"] += "\n" + "".join(
        f"pub use {snake(name)}::{name};\n" for name in sorted(record.name for record in borrowed())
    )
    return found


def paths():
    return list(texts())


def files():
    return laid_out(texts())
