"""The records as structs of Rust, which borrow the payload that they are read from."""
import functools
import textwrap

from .borrowed import has_slices, is_slice
from .model import camel
from .typed_c import by_name, has_content, is_borrowed
from .typed_model import TypedOneOf, enumerations, reasons, records

HEAD = """\
//! The records of the journal protocol, a struct for each, with the comments of its description.
//!
//! What is absent is `None`, and a oneof is an enum. Bytes and texts are borrowed from the payload where it is
//! canonical, and otherwise copied. [`Record::decode`] reads any payload that means one, and [`Record::encode`] makes
//! the canonical one; those of messages have a [`MessageRecord::frame`].
//!
//! ```
//! use pendratsoa::messages::{MessageRecord, Record, SetStateCommandMessage, Value};
//! use pendratsoa::Version;
//!
//! let command = SetStateCommandMessage {
//!     key: b"counter"[..].into(),
//!     value: Some(Value { content: b"1"[..].into() }),
//!     ..Default::default()
//! };
//! let frame = command.frame(Version::V8)?;
//! assert_eq!(frame.len(), 8 + command.encode()?.len());
//! # Ok::<(), pendratsoa::Error>(())
//! ```

use std::borrow::Cow;

use crate::error::Error;
use crate::ffi::{append_struct, structs, Table, Writer};
use crate::fields::{Fields, Listed};
use crate::message_type::MessageType;
use crate::schema::Schema;
use crate::version::Version;

pub use crate::fields::{MessageRecord, Record};
"""


def doc(comment, indent=""):
    return "".join(f"{indent}/// {line}\n" for line in textwrap.wrap(comment, 115 - len(indent)))


@functools.cache
def borrows(name):
    """Whether a record borrows anything."""
    seen, left = set(), [name]
    by_name = {record.name: record for record in records()}
    while left:
        record = by_name[left.pop()]
        seen.add(record.name)
        for field in record.fields():
            if field.kind in ("text", "bytes"):
                return True
            if field.record and field.record not in seen:
                left.append(field.record)
    return False


def life(name):
    return "<'a>" if borrows(name) else ""


TYPES = {"u32": "u32", "u64": "u64", "bool": "bool", "text": "Cow<'a, str>", "bytes": "Cow<'a, [u8]>"}


def element(field):
    return f"{field.record}{life(field.record)}" if field.record else field.enum or TYPES[field.kind]


def oneof_name(record, row):
    return f"{record.name.removesuffix('Message')}{camel(row.name)}"


def oneof_life(row):
    borrowed = any(field.kind in ("text", "bytes") or field.record and borrows(field.record) for field in row.members)
    return "<'a>" if borrowed else ""


def type_of(record, row):
    if isinstance(row, TypedOneOf):
        return f"Option<{oneof_name(record, row)}{oneof_life(row)}>"
    if row.shape == "repeated":
        return f"Vec<{element(row)}>"
    return f"Option<{element(row)}>" if row.shape == "optional" else element(row)


def raw(name):
    """A field's name, where it is a word of Rust."""
    return (
        f"r#{name}"
        if name in ("type", "fn", "match", "move", "ref", "use", "where", "loop", "mod", "impl", "in")
        else name
    )


def struct(record):
    text = "\n" + doc(record.comment) + "#[derive(Clone, Debug, Default, PartialEq, Eq, Hash)]\n"
    if not record.rows:
        return text + f"pub struct {record.name} {{}}\n"
    text += f"pub struct {record.name}{life(record.name)} {{\n"
    for row in record.rows:
        text += doc(row.comment, "    ") + f"    pub {raw(row.name)}: {type_of(record, row)},\n"
    return text + "}\n"


def oneof(record, row):
    name = oneof_name(record, row)
    text = (
        "\n" + doc(row.comment) + f"#[derive(Clone, Debug, PartialEq, Eq, Hash)]\npub enum {name}{oneof_life(row)} {{\n"
    )
    for field in row.members:
        text += doc(field.comment, "    ") + f"    {camel(field.name)}({element(field)}),\n"
    return text + "}\n"


READS = {
    "u32": "table.number32(field)",
    "u64": "field.value()",
    "bool": "field.value() != 0",
    "text": "table.text(field)",
    "bytes": "table.bytes(field)",
}


def reading(field):
    return f"{field.enum}(table.signed(field))" if field.enum else READS[field.kind]


def read_arm(record, row, field):
    target = f"self.{raw(row.name)}"
    block = []
    if isinstance(row, TypedOneOf):
        name = f"{oneof_name(record, row)}::{camel(field.name)}"
        if field.record:
            block = [f"let mut value = {field.record}::default();", "value.read(table, level + 1);"]
            block += [f"{target} = Some({name}(value));"]
        else:
            block = [f"let value = {reading(field)};", f"{target} = Some({name}(value));"]
    elif field.shape == "repeated":
        work = "element.read(table, level + 1)" if field.record else f"*element = {reading(field)}"
        block = [f"if let Some(element) = table.append(&mut {target}) {{", f"    {work};", "}"]
    elif field.record and field.shape == "optional":
        block = [f"let value = {target}.insert(Default::default());", "value.read(table, level + 1);"]
    elif field.record:
        return f"{field.number} => {target}.read(table, level + 1),"
    if block:
        inner = "".join(f"                    {line}\n" for line in block)
        return f"{field.number} => {{\n{inner}                }}"
    value = f"Some({reading(field)})" if field.shape == "optional" else reading(field)
    return f"{field.number} => {target} = {value},"


def writing(field, value, is_reference):
    """What writes a value, which is a reference or a place."""
    number = field.number
    held = value if is_reference else f"&{value}"
    plain = f"*{value}" if is_reference else value
    if field.record:
        return f"writer.record(level, {number}, {held});"
    if field.kind in ("text", "bytes"):
        return f"writer.{field.kind}(level, {number}, {held});"
    if field.enum:
        return f"writer.signed(level, {number}, {value}.0);"
    if field.kind == "bool":
        return f"writer.flag(level, {number}, {plain});"
    if field.kind == "u64":
        return f"writer.number64(level, {number}, {plain});"
    return f"writer.number32(level, {number}, {plain});"


def write_part(record, row):
    target = f"self.{raw(row.name)}"
    if isinstance(row, TypedOneOf):
        arms = "".join(
            f"            Some({oneof_name(record, row)}::{camel(field.name)}(value)) => {{\n"
            f"                {writing(field, 'value', True)}\n            }}\n"
            for field in row.members
        )
        return f"        match &{target} {{\n{arms}            None => {{}}\n        }}\n"
    if row.shape == "repeated":
        return f"        for element in &{target} {{\n            {writing(row, 'element', True)}\n        }}\n"
    if row.shape == "optional":
        return f"        if let Some(value) = &{target} {{\n            {writing(row, 'value', True)}\n        }}\n"
    if row.record:
        return f"        {writing(row, target, False)}\n"
    # the library leaves a default out; so it needs no entry
    return f"        if {is_set(row, target)} {{\n            {writing(row, target, False)}\n        }}\n"


def is_set(field, place):
    """Whether a plain field is not its default."""
    if field.kind in ("text", "bytes"):
        return f"!{place}.is_empty()"
    return place if field.kind == "bool" else f"{place}{'.0' if field.enum else ''} != 0"


# How a record is appended that the library takes as a struct.
APPEND = """
    #[inline]
    fn append_struct(&self, out: &mut Vec<u8>, before: usize) -> Option<usize> {
        append_struct(out, before, |lists| structs::RECORD::of(self, lists))
    }
}
"""


def implementation(record):
    # a record that borrows nothing is read from any payload
    name = record.name
    generic = f"impl<'a> Fields<'a> for {name}{life(name)}"
    text = f"\n{generic} {{\n    const LISTED: &'static Listed = &LISTED[{record.schema}];\n\n"
    text += "    fn read(&mut self, table: &mut Table<'a, '_>, level: u64) {\n"
    if record.rows:
        text += "        while let Some(field) = table.next(level) {\n            match field.number() {\n"
        for row in record.rows:
            for field in row.members if isinstance(row, TypedOneOf) else [row]:
                text += "                " + read_arm(record, row, field) + "\n"
        text += "                number => table.fail(Self::unknown(number)),\n            }\n        }\n    }\n"
        text += "\n    fn write(&self, writer: &mut Writer, level: u64) {\n"
        text += "".join(write_part(record, row) for row in record.rows) + "    }\n}\n"
    else:
        text += "        if let Some(field) = table.next(level) {\n"
        text += "            table.fail(Self::unknown(field.number()));\n        }\n    }\n"
        text += "\n    fn write(&self, _: &mut Writer, _: u64) {}\n}\n"
    if is_borrowed(record):
        text = text.removesuffix("}\n") + APPEND.replace("RECORD", name)
    text += f"\nimpl<'a> Record<'a> for {name}{life(name)} {{\n    const SCHEMA: Schema = Schema::{name};\n}}\n"
    if record.code is not None:
        before = (
            f"    const BEFORE_VERSION: Option<Version> = Some(Version::V{record.before_version});\n"
            if record.before_version
            else ""
        )
        if record.code in {other.code for other in records() if other.before_version}:
            before += "    const IS_ALONE: bool = false;\n"
        text += (
            f"\nimpl<'a> MessageRecord<'a> for {name}{life(name)} {{\n"
            f"    const TYPE: MessageType = MessageType::{record.type_name};\n{before}}}\n"
        )
    return text


def enum(found):
    text = "\n" + doc(found.comment) + "#[derive(Clone, Copy, Debug, Default, PartialEq, Eq, Hash)]\n"
    text += f"pub struct {found.name}(pub i32);\n\nimpl {found.name} {{\n"
    for name, number, said in found.values:
        text += doc(said or f"`{name}`.", "    ") + f"    pub const {name}: {found.name} = {found.name}({number});\n"
    return text + "}\n"


def any_message():
    sent = [record for record in records() if record.code is not None]
    text = (
        "\n/// The record of a message of any type.\n#[derive(Clone, Debug, PartialEq, Eq, Hash)]\n#[non_exhaustive]\n"
    )
    text += "pub enum AnyMessage<'a> {\n"
    for record in sent:
        text += doc(record.comment, "    ") + f"    {variant(record)}({record.name}{life(record.name)}),\n"
    text += "}\n\nimpl<'a> AnyMessage<'a> {\n"
    text += "    /// The record that a payload means for a schema, or `None` if the schema is of no message's record.\n"
    text += "    pub(crate) fn read(schema: u32, payload: &'a [u8]) -> Option<Result<AnyMessage<'a>, Error>> {\n"
    text += "        Some(match Schema::from_number(schema)? {\n"
    for record in sent:
        text += f"            Schema::{record.name} => {{\n"
        text += f"                Record::decode(payload).map(AnyMessage::{variant(record)})\n            }}\n"
    text += "            _ => return None,\n        })\n    }\n\n"
    text += "    /// Its frame at a version, as [`MessageRecord::frame`].\n"
    text += "    pub fn frame(&self, version: Version) -> Result<Vec<u8>, Error> {\n        match self {\n"
    for record in sent:
        text += f"            AnyMessage::{variant(record)}(record) => record.frame(version),\n"
    return text + "        }\n    }\n}\n"


def variant(record):
    return record.name.replace("Message", "")


def listed():
    text = (
        "\n/// The names of the records and of their fields, at the numbers of their schemas, for the paths of "
        "errors.\n"
    )
    text += f"const LISTED: [Listed; {len(records())}] = [\n"
    for record in records():
        fields = "".join(
            f'        ({field.number}, "{field.name}", {str(field.shape == "repeated").lower()}, '
            + (
                f"Some({next(other.schema for other in records() if other.name == field.record)})"
                if field.record
                else "None"
            )
            + "),\n"
            for field in record.fields()
        )
        fields = f"\n{fields}    " if fields else ""
        text += f'    Listed {{ name: "{record.name}", fields: &[{fields}] }},\n'
    text += "];\n\nstatic ALL: [Listed; %d] = LISTED;\n\n" % len(records())
    text += "pub(crate) fn listed(schema: usize) -> &'static Listed {\n    &ALL[schema]\n}\n"
    return text


def kinds():
    text = "//! Why a field cannot be encoded, by the numbers of the library.\n\n"
    names = [("".join(word.capitalize() for word in name.split("_")), *texts) for name, *texts in reasons()]
    text += (
        "/// Why a field cannot be encoded.\n#[derive(Clone, Copy, Debug, PartialEq, Eq, Hash)]\n#[non_exhaustive]\n"
    )
    text += "pub enum FieldReason {\n" + "".join(
        f"    /// {said[0].upper()}{said[1:]}.\n    {name},\n" for name, said, _ in names
    )
    text += (
        "}\n\nimpl FieldReason {\n    pub(crate) fn from_number(number: u64) -> Option<FieldReason> {\n"
        "        Some(match number {\n"
    )
    text += "".join(f"            {number} => FieldReason::{name},\n" for number, (name, _, _) in enumerate(names, 1))
    text += (
        "            _ => return None,\n        })\n    }\n\n    pub(crate) fn text(self) -> &'static str {\n"
        "        match self {\n"
    )
    text += "".join(f'            FieldReason::{name} => "{words}",\n' for name, _, words in names)
    return text + "        }\n    }\n}\n"


def module():
    text = HEAD
    text += "".join(enum(found) for found in enumerations())
    for record in records():
        text += struct(record) + "".join(oneof(record, row) for row in record.rows if isinstance(row, TypedOneOf))
        text += implementation(record)
    return text + any_message() + listed()


def all_records():
    """What the tests need of every record."""
    text = "//! Every record, by its schema: what is decoded, and encoded again.\n\n"
    text += "use pendratsoa::messages::{self, Record};\nuse pendratsoa::{Error, Schema};\n\n"
    text += (
        "fn again<'a, R: Record<'a>>(payload: &'a [u8]) -> Result<Vec<u8>, Error> {\n    R::decode(payload)?.encode()\n"
        "}\n\n"
    )
    text += "/// The payload of the record that a payload means for a schema.\n"
    text += "pub fn encoded_again(schema: Schema, payload: &[u8]) -> Result<Vec<u8>, Error> {\n    match schema {\n"
    text += "".join(
        f"        Schema::{record.name} => again::<messages::{record.name}>(payload),\n" for record in records()
    )
    return text + '        other => panic!("{other:?} is not listed"),\n    }\n}\n'


STRUCTS = """\
//! The records as the library takes them: the structs of `pendratsoa_messages.h`, each made of a record, and the
//! calls that write their payloads. A record within itself has none, nor has one that holds such a record.

use super::lists::{List, Lists, Slice, Struct};
use crate::messages;

/// The calls, as the header declares them.
mod c {
    extern "C" {
CALLS    }
}
"""


def struct_life(record):
    """The lifetime of a struct that points into a record."""
    return "<'r>" if has_slices(record) else ""


def struct_type(field):
    """The type of what a field holds in a struct."""
    if field.record:
        return f"{field.record}{struct_life(by_name()[field.record])}"
    if field.kind in ("text", "bytes"):
        return "Slice<'r>"
    return {"enum": "i32"}.get(field.kind, field.kind)


def made(field, value):
    """What a value, to which this is a reference, is in a struct."""
    if field.record:
        return f"{field.record}::of({value}, lists)"
    if field.kind in ("text", "bytes"):
        return f"lists.{field.kind}({value})"
    return f"{value}.0" if field.enum else f"*{value}"


def struct_row(record, row):
    """Of a row: the members of a struct, the statements before it is made, and what its members are."""
    name, at = raw(row.name), f"record.{raw(row.name)}"
    if isinstance(row, TypedOneOf):
        held = [field for field in row.members if has_content(field)]
        kind = f"{record.name}{camel(row.name)}"
        life = "<'r>" if any(map(is_slice, held)) else ""
        arms = ""
        for field in row.members:
            value = "value" if has_content(field) else "_"
            arms += f"            Some(messages::{oneof_name(record, row)}::{camel(field.name)}({value})) => {{\n"
            arms += f"                {name}_case = {field.number};\n"
            if has_content(field):
                arms += f"                {name}.{raw(field.name)} = {made(field, 'value')};\n"
            arms += "            }\n"
        before = f"        let mut {name}_case = 0;\n        let mut {name} = {kind}::default();\n"
        before += f"        match &{at} {{\n{arms}            None => {{}}\n        }}\n"
        return f"    {name}_case: u32,\n    {name}: {kind}{life},\n", before, [f"{name}_case", name]
    if row.shape == "repeated":
        kind = f"List<'r, {struct_type(row)}>"
        if row.record:
            value = f"lists.list(&{at}, {row.record}::of)"
        elif row.kind in ("text", "bytes"):
            value = f"lists.list(&{at}, |element, lists| lists.{row.kind}(element))"
        else:
            value = f"List::of(&{at})"
        return f"    {name}: {kind},\n", "", [f"{name}: {value}"]
    if row.shape == "optional":
        member, values = f"    has_{row.name}: bool,\n", [f"has_{row.name}: {at}.is_some()"]
        if has_content(row):
            member += f"    {name}: {struct_type(row)},\n"
            values.append(
                f"{name}: match &{at} {{\n                Some(value) => {made(row, 'value')},\n"
                "                None => Default::default(),\n            }"
            )
        return member, "", values
    value = made(row, f"&{at}") if row.record or row.kind in ("text", "bytes") else made(row, at).removeprefix("*")
    return f"    {name}: {struct_type(row)},\n", "", [f"{name}: {value}" if value != name else name]


def members_struct(record, row):
    """The struct of a oneof's members."""
    held = [field for field in row.members if has_content(field)]
    life = "<'r>" if any(map(is_slice, held)) else ""
    return (
        f"\n/// The members of `{row.name}` of `{record.name}`.\n#[repr(C)]\n#[derive(Clone, Copy, Default)]\n"
        f"pub(crate) struct {record.name}{camel(row.name)}{life} {{\n"
        + "".join(f"    {raw(field.name)}: {struct_type(field)},\n" for field in held)
        + "}\n"
    )


def struct_of(record):
    """The struct of a record, how one is made, and the call that takes it."""
    life = struct_life(record)
    lifetime = "'r" if life else "'_"
    parts = [struct_row(record, row) for row in record.rows]
    text = "".join(members_struct(record, row) for row in record.rows if isinstance(row, TypedOneOf))
    text += f"\n/// `{record.name}`.\n#[repr(C)]\n#[derive(Clone, Copy, Default)]\n"
    text += f"pub(crate) struct {record.name}{life} {{\n"
    text += ("".join(member for member, _, _ in parts) or "    nothing: u8,\n") + "}\n"
    given = "record" if parts else "_"
    lists = "lists" if any("lists" in str(part) for part in parts) else "_"
    borrow = f"&{lifetime} " if life else "&"
    held = f"messages::{record.name}{'<' + chr(39) + '_>' if borrows(record.name) else ''}"
    text += f"\nimpl{life} {record.name}{life} {{\n    #[inline(always)]\n"
    text += f"    pub(crate) fn of({given}: {borrow}{held}, {lists}: &mut Lists<'_>) -> Self {{\n"
    text += "".join(before for _, before, _ in parts) + "        Self {\n"
    values = [value for _, _, found in parts for value in found] or ["nothing: 0"]
    text += "".join(f"            {value},\n" for value in values) + "        }\n    }\n}\n"
    shown = f"{record.name}<'_>" if life else record.name
    text += "\n// SAFETY: the struct and the call are those of the header, of the same name\n"
    text += f"unsafe impl Struct for {shown} {{\n"
    text += "    const ENCODE: unsafe extern \"C\" fn(*const Self, *mut u8, usize) -> i64 =\n"
    return text + f"        c::journal_encode_{record.name};\n}}\n"


def structs():
    found = [record for record in records() if is_borrowed(record)]
    calls = "".join(
        f"        pub(super) fn journal_encode_{record.name}(\n"
        f"            record: *const super::{record.name}{struct_life(record).replace(chr(39) + 'r', chr(39) + '_')},\n"
        "            out: *mut u8,\n            room: usize,\n        ) -> i64;\n"
        for record in found
    )
    return STRUCTS.replace("CALLS", calls) + "".join(map(struct_of, found))


def files():
    return {
        "rust/src/messages.rs": module(),
        "rust/src/ffi/structs.rs": structs(),
        "rust/src/kinds.rs": kinds(),
        "rust/tests/all_records/mod.rs": all_records(),
    }
