"""The baseline's records and tables, over prost.

bench/src/records.rs has the records of proto/journal.proto as prost-build would write them, with shared buffers for
`bytes`. table.rs has what depends on their numbers: the fields of each schema, the code of each message type, and
macros that lead from a number to the record. json.rs has how serde writes the records, in proto3's JSON form, and
read_json.rs how it reads them.
"""
from . import missing  # noqa: F401
from .proto import OneOf, camel, enums, json_name, messages, schemas, snake, typed
from .tables import least

ABOUT = "The records and the tables of the peer, in Rust."
SOURCE = "proto/journal.proto"

# For each kind: prost's word for it, and the type of a value.
SCALARS = {
    "u32": ("uint32", "u32"),
    "u64": ("uint64", "u64"),
    "bool": ("bool", "bool"),
    "text": ("string", "::prost::alloc::string::String"),
    "bytes": ('bytes = "bytes"', "::prost::bytes::Bytes"),
}
KINDS = {"u32": "U32", "u64": "U64", "bool": "Bool", "enum": "Enum", "text": "Text", "bytes": "Bytes"}
# For each kind: whether a plain field is more than its default, if that is no 0, and how serde is given a value, if not
# as it is.
IS_SET = {"bool": "{0}", "text": "!{0}.is_empty()", "bytes": "!{0}.is_empty()"}
WRITTEN = {"u64": "&Quoted({0})", "bytes": "&Base64({0})"}
LABELS = {"plain": "Plain", "optional": "Optional", "message": "Optional", "repeated": "Repeated"}


def enumeration(name, constants):
    """An enum as Rust, its constants without the enum's name before them."""
    prefix = snake(name).upper() + "_"
    variants = "".join(
        f"    {camel(constant.removeprefix(prefix).lower())} = {number},\n" for constant, number in constants
    )
    derives = "Clone, Copy, Debug, PartialEq, Eq, Hash, PartialOrd, Ord, ::prost::Enumeration"
    return f"#[derive({derives})]\n#[repr(i32)]\npub enum {name} {{\n{variants}}}\n"


class Records:
    """Writes messages as prost-build does."""

    def kind(self, field):
        """prost's word for what a field holds, and its type."""
        if field.kind == "message":
            return "message", field.message
        if field.kind == "enum":
            return f'enumeration = "{field.enum}"', "i32"
        return SCALARS[field.kind]

    def field(self, field):
        """A field of a struct."""
        word, type_name = self.kind(field)
        label = ""
        if field.presence == "repeated":
            label = "repeated, "
            type_name = f"::prost::alloc::vec::Vec<{type_name}>"
        elif field.presence != "plain":
            label = "optional, "
            type_name = f"::core::option::Option<{type_name}>"
        return f'    #[prost({word}, {label}tag = "{field.number}")]\n    pub {field.name}: {type_name},\n'

    def row(self, message, row):
        """A row of a struct: a field, or the enum of a oneof."""
        if not isinstance(row, OneOf):
            return self.field(row)
        path = f"{snake(message.name)}::{camel(row.name)}"
        tags = ", ".join(str(member.number) for member in row.members)
        return f'    #[prost(oneof = "{path}", tags = "{tags}")]\n    pub {row.name}: ::core::option::Option<{path}>,\n'

    def member(self, member):
        """A variant of a oneof."""
        word, type_name = self.kind(member)
        if member.kind == "message":
            type_name = f"super::{type_name}"
        if member.kind == "enum":
            word = f'enumeration = "super::{member.enum}"'
        return f'        #[prost({word}, tag = "{member.number}")]\n        {camel(member.name)}({type_name}),\n'

    def one_of(self, row):
        """The enum of a oneof."""
        members = "".join(self.member(member) for member in row.members)
        return f"    #[derive(Clone, PartialEq, ::prost::Oneof)]\n    pub enum {camel(row.name)} {{\n{members}    }}\n"

    def message(self, message):
        """A message, and the module of its oneofs."""
        rows = "".join(self.row(message, row) for row in message.rows)
        body = f"{{\n{rows}}}" if rows else "{}"
        text = f"#[derive(Clone, PartialEq, ::prost::Message)]\npub struct {message.name} {body}\n"
        one_ofs = [self.one_of(row) for row in message.rows if isinstance(row, OneOf)]
        if one_ofs:
            text += (
                f"/// The oneofs of `{message.name}`.\npub mod {snake(message.name)} {{\n" + "\n".join(one_ofs) + "}\n"
            )
        return text


def records():
    """The source of src/records.rs."""
    writer = Records()
    parts = ["//! The records of proto/journal.proto for prost.\n"]
    parts += [enumeration(name, constants) for name, constants in enums().items()]
    parts += [writer.message(message) for message in messages()]
    return "\n".join(parts)


def entry(field, written):
    """What writes a member of an object."""
    return f'object.serialize_entry("{json_name(field.name)}", {written})'


def written_value(field, value):
    """A value by a reference, as serde is given it."""
    return WRITTEN.get(field.kind, "{0}").format(value)


def written_field(field):
    """What writes a field where it is to be seen."""
    place = f"self.{field.name}"
    if field.presence == "repeated":
        condition = f"!{place}.is_empty()"
        written = f"&Base64List(&{place})" if field.kind == "bytes" else f"&{place}"
    elif field.presence == "plain":
        condition = IS_SET.get(field.kind, "{0} != 0").format(place)
        written = written_value(field, f"&{place}")
    else:
        condition = f"let Some(value) = &{place}"
        written = written_value(field, "value")
    return f"        if {condition} {{\n            {entry(field, written)}?;\n        }}\n"


def written_one_of(message, row):
    """What writes the member of a oneof that is there."""
    path = f"{snake(message.name)}::{camel(row.name)}"
    arms = "".join(
        f"            Some({path}::{camel(member.name)}(value)) => {entry(member, written_value(member, 'value'))}?,\n"
        for member in row.members
    )
    return f"        match &self.{row.name} {{\n{arms}            None => (),\n        }}\n"


def json():
    """The source of src/json.rs."""
    parts = [
        "//! How serde writes the records, in proto3's JSON form.\n",
        "use serde::ser::{Serialize, SerializeMap, Serializer};\n",
        "use crate::dump::{Base64, Base64List, Quoted};\nuse crate::records::*;\n",
    ]
    for message in messages():
        members = "".join(
            written_one_of(message, row) if isinstance(row, OneOf) else written_field(row)
            for row in sorted(message.rows, key=least)
        )
        mutable = "mut " if members else ""
        parts.append(
            f"impl Serialize for {message.name} {{\n"
            "    fn serialize<S: Serializer>(&self, serializer: S) -> Result<S::Ok, S::Error> {\n"
            f"        let {mutable}object = serializer.serialize_map(None)?;\n{members}        object.end()\n    }}\n"
            "}\n"
        )
    return "\n".join(parts)


def read_type(field):
    """The type by which serde reads a single value of a field, and what makes the field's value of it."""
    return {
        "u32": ("Number<u32>", "{0}.0"),
        "u64": ("Number<u64>", "{0}.0"),
        "bytes": ("Binary", "{0}.0"),
        "enum": (f"Enumeration<{field.enum}>", "{0}.number"),
        "message": (field.message, "{0}"),
        "bool": ("bool", "{0}"),
        "text": ("String", "{0}"),
    }[field.kind]


def read_arm(message, row, field, place):
    """The arm of a match that reads a member of an object."""
    read, made = read_type(field)
    keys = " | ".join(f'"{key}"' for key in dict.fromkeys((json_name(field.name), field.name)))
    if isinstance(row, OneOf):
        found = made.format("value")
        store = (
            f"one_of(&mut found.{row.name}, {snake(message.name)}::{camel(row.name)}::{camel(field.name)}({found}))?;"
        )
    elif field.presence == "repeated":
        read = f"Vec<{read}>"
        each = made.format("each")
        found = "value" if each == "each" else f"value.into_iter().map(|each| {each}).collect()"
        store = f"found.{field.name} = {found};"
    else:
        found = made.format("value")
        store = (
            f"found.{field.name} = {found};" if field.presence == "plain" else f"found.{field.name} = Some({found});"
        )
    return (
        f"                {keys} => {{\n"
        f"                    if let Some(value) = member::<{read}, A>(&mut seen, {place}, &mut object)? {{\n"
        f"                        {store}\n                    }}\n                }}\n"
    )


def read_message(message):
    """How serde reads a record."""
    fields = [(row, field) for row in message.rows for field in (row.members if isinstance(row, OneOf) else [row])]
    arms = "".join(read_arm(message, row, field, place) for place, (row, field) in enumerate(fields))
    mutable, seen = ("mut ", "            let mut seen = 0;\n") if fields else ("", "")
    return (
        f"impl<'de> Read<'de> for {message.name} {{\n"
        "    fn read<A: MapAccess<'de>>(mut object: A) -> Result<Self, A::Error> {\n"
        f"        let {mutable}found = {message.name}::default();\n{seen.replace('            ', '        ')}"
        "        while let Some(Key(key)) = object.next_key()? {\n            match &*key {\n"
        f"{arms}                _ => return Err(unknown(&key)),\n            }}\n        }}\n        Ok(found)\n"
        "    }\n}\n\n"
        f"impl<'de> Deserialize<'de> for {message.name} {{\n"
        "    fn deserialize<D: Deserializer<'de>>(deserializer: D) -> Result<Self, D::Error> {\n"
        "        read(deserializer)\n    }\n}\n"
    )


def read_json():
    """The source of src/read_json.rs."""
    parts = [
        "//! How serde reads the records, in proto3's JSON form.\n",
        "use serde::de::{Deserialize, Deserializer, MapAccess};\n",
        "use crate::make::{member, one_of, read, unknown, Binary, Enumeration, Key, Named, Number, Read};\n"
        "use crate::records::*;\n",
    ]
    for name, constants in enums().items():
        names = ", ".join(f'("{constant}", {number})' for constant, number in constants)
        parts.append(f"impl Named for {name} {{\n    const NAMES: &'static [(&'static str, i32)] = &[{names}];\n}}\n")
    parts += [read_message(message) for message in messages()]
    return "\n".join(parts)


def rows(message):
    """The fields of a message, in the order in which a canonical payload has them, each with its label."""
    fields = []
    for row in message.rows:
        if isinstance(row, OneOf):
            least = min(member.number for member in row.members)
            fields += [(member, f"Member({least})") for member in row.members]
        else:
            fields.append((row, LABELS[row.presence]))
    return fields


def schema(message, numbers):
    """A row of the table of schemas."""
    fields = ""
    for field, label in rows(message):
        kind = f"Message({numbers[field.message]})" if field.kind == "message" else KINDS[field.kind]
        fields += f"            Field::new({field.number}, {kind}, {label}),\n"
    body = f"&[\n{fields}        ]" if fields else "&[]"
    return f'    Schema {{\n        name: "{message.name}",\n        fields: {body},\n    }},\n'


def choice(name, comment, selector, arms):
    """A macro that leads from a number to a record."""
    body = "".join(
        f"            {number} => {{\n                type $record = $crate::records::{record};\n"
        "                $body\n            }\n"
        for number, record in arms
    )
    return (
        f"/// {comment}\nmacro_rules! {name} {{\n"
        f"    (${selector}:expr, $record:ident => $body:expr, _ => $other:expr $(,)?) => {{\n"
        f"        match ${selector} {{\n{body}            _ => $other,\n        }}\n    }};\n}}\n"
        f"pub(crate) use {name};\n"
    )


def names_of(types):
    """The function that names a code."""
    arms = "".join(f'        0x{code:04X} => "{name}",\n' for name, code in types)
    return (
        "/// The name of the message type that has a code.\npub fn name_of(code: u16) -> Option<&'static str> {\n"
        f"    Some(match code {{\n{arms}        _ => return None,\n    }})\n}}\n"
    )


def table():
    """The source of src/table.rs."""
    order = schemas()
    numbers = {message.name: message.schema for message in order}
    types = [(message.type_name(), message.code) for message in typed()]
    listed = "".join(schema(message, numbers) for message in order)
    codes = "".join(
        f'    MessageType {{\n        name: "{name}",\n        code: 0x{code:04X},\n'
        f'        schema: {numbers[name + "Message"]},\n    }},\n'
        for name, code in types
    )
    parts = [
        "//! The schemas and the message types by their numbers.\n",
        "use crate::schema::{Field, Kind::*, Label::*, MessageType, Schema};\n",
        f"/// The schemas, each at its number.\npub static SCHEMAS: [Schema; {len(order)}] = [\n{listed}];\n",
        f"/// The message types that have a name.\npub static TYPES: [MessageType; {len(types)}] = [\n{codes}];\n",
        names_of(types),
        choice(
            "with_schema",
            "Does the body with a name for the record of a schema, or the other where no schema has the number.",
            "schema",
            [(message.schema, message.name) for message in order],
        ),
        choice(
            "with_message",
            "Does the body with a name for the record of a message type, or the other where no named type has the "
            "code.",
            "code",
            [(f"0x{code:04X}", name + "Message") for name, code in types],
        ),
    ]
    return "\n".join(parts)


def files():
    return {
        "bench/src/records.rs": records(),
        "bench/src/json.rs": json(),
        "bench/src/read_json.rs": read_json(),
        "bench/src/table.rs": table(),
    }
