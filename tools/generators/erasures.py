"""What is not compared of each command, erased: the impls of `Erase`, what leads from a command's type to its record
there, for which types nothing is erased, and which fields are completion ids. What is compared is said as
shared_core_compare has it, by the options of proto/journal.proto.
"""
from . import laid_out
from . import missing_rt as missing  # noqa: F401
from .dispatch import arms_by_type, visited
from .forms import bound
from .proto import OneOf, camel, messages, schema_name, snake
from .records import EMPTY

ABOUT = "What is not compared of a command, erased."
SOURCE = "proto/journal.proto"

PATH = "crates/replay_bench/src/erasures.rt"
TABLE_PATH = "crates/replay_bench/specs/IdTable.antt"

# The names of the fields that are completion ids.
ID_NAMES = {"invocation_id_notification_idx", "result_completion_id"}

TABLE = """\
-- The completion ids of commands.
use Rattle.std.specs.Prelude.{ℕ, List, [], ◌∷◌}
use Rattle.shared_core_codec.specs.Table as schema

-- The fields of each command that are completion ids and are compared, by their numbers. A schema without any is left
-- out.
abbrev pub id_fields : List (ℕ × List ℕ)
id_fields =
"""

HEAD = """\
//! Commands without what is not compared of them, and from a command's type to its form.

ghost use Rattle.std.specs.Prelude.{IfOk, IfSome, IsSome, IsTrue, refl};
ghost use Rattle.shared_core_base.specs.CommandType.{command_type_of};
ghost use Rattle.shared_core_message.specs.Messages.{message_schema};
ghost use Rattle.shared_core.specs.Visiting.{IsVisited, command_schema};
ghost use Rattle.replay_bench.specs.Forms.{ErasesNothing, HasForm};

"""

FORM = """\
/// The form of a command, decoded and encoded again.
pub(crate) fn erased_form(
    alloc: Global,
    command: &RawMessage,
    ignore: Ignored,
) -> Result<Form, AllocError>
    ensures { IfOk result (HasForm ignore command.now) }
{
    match command.ty() {
%s        _ => Ok(Form::Unknown),
    }
}
"""

VISIT = """
/// The result of a visitor for a command's type, or `None` if it is not the type of a command.
pub(crate) fn visit_erased<V: EraseVisitor>(ty: MessageType, visitor: V) -> Option<V::Output>
    requires { V.may_visit visitor ty }
    ensures visited { IsVisited (V.results visitor ty) (command_schema ty) result }
    ensures each { IsSome (command_type_of ty) → IsSome result }
{
    Some(match ty {
%s        _ => return None,
    })
}
"""

WHOLE = """
/// Whether all of a command of this type is compared.
pub(crate) fn is_compared_whole(ty: MessageType, ignore: Ignored) -> bool
    ensures {{ IsTrue result → IfSome (message_schema ty) (ErasesNothing ignore) }}
{{
    match ty {{
{arms}        _ => false,
    }}
}}
"""

IMPL = """
impl Erase for {name} {{
    fn erase(self, {alloc}: Global, {ignore}: bool) -> {name} {{
{body}    }}

    fn without_ids(self) -> {name} {{
{bare}    }}

    ghost shallow = {{ refl }};
}}
"""


def commands():
    return [message for message in messages() if message.is_command()]


def is_erased(row):
    """Whether a row is erased in any case, as if it were absent."""
    return any(field.not_compared for field in members(row))


def is_payload(row):
    """Whether a row is erased if payloads are ignored; its presence stays."""
    return not is_erased(row) and any(field.payload for field in members(row))


def is_id(row):
    """Whether a row is a completion id that is compared, and is erased if ids are ignored."""
    return row.name in ID_NAMES and not is_erased(row)


def whole():
    """Of which types of commands all is compared, in any case or unless payloads or ids are ignored."""
    found = {}
    for message in commands():
        if not any(is_erased(row) for row in message.rows):
            unless = ["!ignore.payloads"] if any(is_payload(row) for row in message.rows) else []
            unless += ["!ignore.ids"] if any(is_id(row) for row in message.rows) else []
            found.setdefault(" && ".join(unless) or "true", []).append(message)
    arms = (
        f"        {' | '.join(f'MessageType::{message.type_name()}' for message in those)} => {answer},\n"
        for answer, those in found.items()
        if those
    )
    return WHOLE.format(arms="".join(arms))


def members(row):
    return row.members if isinstance(row, OneOf) else [row]


def absent(row):
    """What an absent row holds."""
    if isinstance(row, OneOf) or row.presence in ("optional", "message"):
        return "None"
    return "Vec::new(alloc)" if row.presence == "repeated" else EMPTY[row.kind]


def emptied(field):
    """What a present field holds without its content."""
    if field.kind != "message":
        return EMPTY[field.kind]
    return "empty_value()" if field.message == "Value" else f"{field.message}::empty(alloc)"


def without_payload(message, row):
    """What is left of a row whose payload is ignored, and whether that depends on what it holds."""
    if isinstance(row, OneOf):
        one = f"{snake(message.name)}::{camel(row.name)}"
        arms = "".join(
            f"Some({one}::{camel(member.name)}(_value)) => Some({one}::{camel(member.name)}({emptied(member)})),\n"
            for member in row.members
            if member.payload
        )
        return f"match {bound(row)} {{\n{arms}other => other,\n}}", True
    if row.presence in ("optional", "message"):
        return f"{bound(row)}.map(|_value| {emptied(row)})", True
    return absent(row), False


def struct(name, changed, rest="..self"):
    """A record with some rows of its own, and all others of another one."""
    lines = "".join(f"{row}: {value},\n" for row, value in changed.items())
    return f"{name} {{\n{lines}{rest}\n}}"


def ignoring(message, erased):
    """The lines by which a command is made anew without its payloads."""
    left = {row.name: without_payload(message, row) for row in message.rows if is_payload(row)}
    plain = {**erased, **{name: value for name, (value, depends) in left.items() if not depends}}
    depending = {name: value for name, (value, depends) in left.items() if depends}
    if not depending:
        return f"{struct(message.name, plain)}\n"
    kept = [row.name for row in message.rows if row.name not in plain]
    pattern = ", ".join(kept + ([".."] if plain else []))
    made = "".join(f"let {name} = {value};\n" for name, value in depending.items())
    return (
        f"let {message.name} {{ {pattern} }} = self;\n{made}"
        f"{struct(message.name, plain, ''.join(f'{name},' for name in kept))}\n"
    )


def body(message):
    """The body of `erase`."""
    erased = {row.name: absent(row) for row in message.rows if is_erased(row)}
    if message.rows and len(erased) == len(message.rows):
        return f"{message.name}::empty(alloc)\n"
    compared = struct(message.name, erased) if erased else "self"
    if not any(is_payload(row) for row in message.rows):
        return f"{compared}\n"
    return f"if !ignore {{\nreturn {compared};\n}}\n{ignoring(message, erased)}"


def bare(message):
    """The body of `without_ids`."""
    ids = {row.name: absent(row) for row in message.rows if is_id(row)}
    return f"{struct(message.name, ids)}\n" if ids else "self\n"


def impl(message):
    text = body(message)
    return IMPL.format(
        name=message.name,
        body=text,
        bare=bare(message),
        alloc="alloc" if "alloc" in text else "_alloc",
        ignore="ignore" if "ignore" in text else "_ignore",
    )


def uses(code):
    """The lines that bring what is used into scope."""
    found = {message.name for message in commands()}
    found |= {snake(message.name) for message in commands() if f"{snake(message.name)}::" in code}
    found |= {message.name for message in messages() if f"{message.name}::empty(alloc)" in code}
    called = (name for name in ("empty_value", "form_as") if f"{name}(" in code or f"{name}::" in code)
    helpers = ["Erase", "EraseVisitor", *called]
    records = "use shared_core::wire::WireRecord;\n" if "::empty(alloc)" in code else ""
    return (
        f"use crate::erase::{{{', '.join(helpers)}}};\nuse crate::forms::Form;\nuse crate::journals::Ignored;\n"
        + ("use bytes::Bytes;\n" if "Bytes::new()" in code else "")
        + "use shared_core::encoding::RawMessage;\n"
        + f"use shared_core::messages::{{{', '.join(sorted(found))}}};\n{records}"
        + "use shared_core_base::header::MessageType;\nuse std::alloc::{AllocError, Global};\n\n"
    )


def table():
    """Which fields are completion ids."""
    rows = []
    for message in commands():
        ids = "".join(f"{row.number} ∷ " for row in message.rows if is_id(row))
        if ids:
            rows.append(f"(schema.{schema_name(message.name)}, {ids}[])")
    return TABLE + "".join(f"    {'∷ ' if place else ''}{row}\n" for place, row in enumerate(rows)) + "    ∷ []\n"


def texts():
    """The files, not yet laid out."""
    arms = arms_by_type(commands(), lambda record: f"form_as::<{record}>(alloc, command, ignore)")
    visits = arms_by_type(commands(), visited)
    code = FORM % arms + VISIT % visits + whole() + "".join(impl(message) for message in commands())
    return {PATH: HEAD + uses(code) + code, TABLE_PATH: table()}


def paths():
    return [PATH, TABLE_PATH]


def files():
    return laid_out(texts())
