"""The records of proto/journal.proto as Rattle source, as prost-build writes them for Rust.

One file a message, in the crates below, laid out as `rt fmt` does. Only Future is written by hand, since it leads back
to itself and so has a form of its own; its fields and numbers are compared with the description.
"""
import re
import textwrap

from . import laid_out
from . import missing_rt as missing  # noqa: F401
from .forms import BY_HAND, HAND_WRITTEN, INNER, PARTS_CRATE, TYPES, bound
from .proto import OneOf, camel, earlier, messages, schema_name, snake

ABOUT = "The records of the messages in Rattle."
SOURCE = "proto/journal.proto"

# The crates of the records, each with a line on what it holds.
ABOUT_CRATES = {
    PARTS_CRATE: "The nested messages, and the template of notifications.",
    "shared_core_runtime": "The records of the protocol's core: how an invocation starts, suspends, fails and ends.",
    "shared_core_state_commands": "The records of the commands on input, output and state.",
    "shared_core_call_commands": "The records of the commands on promises, time, calls, signals and invocations.",
    "shared_core_notifications": "The records of the notifications.",
}

# The commands on input, output and state; a command that is not listed is in the other crate of commands.
STATE_COMMANDS = {
    "InputCommandMessage",
    "OutputCommandMessage",
    "GetLazyStateCommandMessage",
    "SetStateCommandMessage",
    "ClearStateCommandMessage",
    "ClearAllStateCommandMessage",
    "GetLazyStateKeysCommandMessage",
    "GetEagerStateCommandMessage",
    "GetEagerStateKeysCommandMessage",
}


def crate_of(message):
    """The crate of a message's record."""
    if message.code is None:
        return PARTS_CRATE
    if message.is_command():
        return "shared_core_state_commands" if message.name in STATE_COMMANDS else "shared_core_call_commands"
    return "shared_core_notifications" if message.is_notification() else "shared_core_runtime"


# The crates, each with that line and its messages.
CRATES = {
    crate: (
        about,
        [message.name for message in messages() if crate_of(message) == crate and message.name not in HAND_WRITTEN],
    )
    for crate, about in ABOUT_CRATES.items()
}

# The crates whose commands are compared.
COMMAND_CRATES = ["shared_core_state_commands", "shared_core_call_commands"]

# Oneofs that several messages of a crate have alike: their module, the enum's name, what it is, and the messages.
SHARED = {
    "shared_core_call_commands": [
        (
            "invocation_target",
            "InvocationTarget",
            "Which invocation a command is about.",
            ["AttachInvocationCommandMessage", "GetInvocationOutputCommandMessage"],
        ),
    ],
    "shared_core_notifications": [
        (
            "any_result",
            "AnyResult",
            "A result that may be nothing, a value or a failure.",
            [
                "GetPromiseCompletionNotificationMessage",
                "PeekPromiseCompletionNotificationMessage",
                "GetInvocationOutputCompletionNotificationMessage",
                "SignalNotificationMessage",
            ],
        ),
        (
            "value_or_failure",
            "ValueOrFailure",
            "A result that is a value or a failure.",
            [
                "CallCompletionNotificationMessage",
                "RunCompletionNotificationMessage",
                "AttachInvocationCompletionNotificationMessage",
            ],
        ),
    ],
}

# Messages whose type is not their own name.
TYPE_OF = {message.name: last.type_name() for message, last in earlier()}

# What the enums of oneofs derive in addition to Debug, PartialEq and Drop, by message and oneof.
DERIVED = {("NotificationTemplate", "id"): ["Eq", "Hash"]}

# What is shown of hand-written modules in addition to records.
SHOWN = {PARTS_CRATE: ["texts::{HeadersText, StateKeysText}"]}

# By kind: the part that a field is, and the name of its kind in schemas.
PARTS = {
    "u32": "Number",
    "u64": "Number",
    "bool": "boolean_part",
    "enum": "enum_part",
    "text": "text_part",
    "bytes": "Content",
}
KINDS = {"u32": "U32", "u64": "U64", "bool": "Boolean", "enum": "Enumeration", "text": "Text", "bytes": "ByteString"}

# What a field of a kind is where it is absent.
EMPTY = {"u32": "0", "u64": "0", "bool": "false", "enum": "0", "text": "String::new(alloc)", "bytes": "Bytes::new()"}


def comment(text, indent=""):
    lines = textwrap.wrap(text, 116 - len(indent))
    return "".join(f"{indent}/// {line}\n" for line in lines)


class Source:
    """The source of one file, with the names that it uses."""

    def __init__(self, crate, heading):
        self.crate = crate
        self.heading = heading
        self.values = set()
        self.views = set()
        self.kinds = set()
        self.prelude = set()
        self.rules = {"equality_rules"}
        self.parts = set()
        self.presences = set()
        self.uses = set()
        self.ghosts = set()
        self.shadowed = False
        self.body = []

    def part(self, kind, message, value):
        """The part that a value of a kind is."""
        if kind == "message":
            self.views.add("message_part")
            self.parts.add(message)
            return f"message_part ⟦<{message} as WireRecord>⟧.parts {value}".rstrip()
        name = PARTS[kind]
        if name == "Number":
            self.values.add("Number")
        elif name == "Content":
            self.values.add("Bytes as Content")
        else:
            self.views.add(name)
        return f"{name} {value}".rstrip()

    def result(self):
        """The standard library's `Result`, where an enum of a oneof has that name, as prost gives it."""
        return "result::Result" if self.shadowed else "Result"

    def lines(self, presence, number, name):
        """The lines that read, measure and write a field, which are the same whatever its kind is."""
        self.presences.add(presence)
        at = "" if number is None else f"{number}, "
        return (
            f"{presence}::merge(&mut self.{name}, field)?,\n",
            f"        {presence}::measure(size, {at}&self.{name});\n",
            f"{presence}::write(out, end, {at}&self.{name})",
        )

    def text(self):
        ghosts = []
        if self.prelude:
            ghosts.append(f"Rattle.std.specs.Prelude.{{{', '.join(sorted(self.prelude))}}}")
        if self.kinds:
            ghosts.append(f"Rattle.shared_core_wire.specs.Schema.{{{', '.join(sorted(self.kinds))}}}")
        if self.values:
            ghosts.append(f"Rattle.shared_core_wire.specs.Value.{{{', '.join(sorted(self.values))}}}")
        ghosts += sorted(self.ghosts)
        ghosts.append("Rattle.shared_core_codec.specs.Table as tables")
        if self.views:
            ghosts.append(f"Rattle.shared_core_codec.specs.FieldParts.{{{', '.join(sorted(self.views))}}}")
        ghosts.append(f"Rattle.shared_core_codec.specs.EqualityRules.{{{', '.join(sorted(self.rules))}}}")
        uses = set(self.uses)
        for message in self.parts:
            home = "crate" if self.crate == PARTS_CRATE else PARTS_CRATE
            uses.add(f"{home}::{snake(message)}::{message}")
        if self.presences:
            shown = ", ".join(sorted(self.presences))
            uses.add(f"shared_core_codec::{{{shown}}}" if len(self.presences) > 1 else f"shared_core_codec::{shown}")
        if self.shadowed:
            uses.add("std::result")
        code = "".join(self.body)
        if re.search(r"\bBytes\b", code):
            uses.add("bytes::Bytes")
        return (
            f"//! {self.heading}\n\n"
            + "".join(f"ghost use {ghost};\n" for ghost in ghosts)
            + "\n"
            + "".join(f"use {use};\n" for use in sorted(uses))
            + "\n"
            + code
        )


def laws(crate, module, name, trait, short):
    """The line that brings the equality law of a record or of a oneof, and its name."""
    law = f"{short}_equality"
    present = f", present-law as {short}_present" if trait == "OneOf" else ""
    path = f"Rattle.{crate}.specs.contracts.{module}.{name}{trait}.TheImpl.Laws"
    laws = [law, f"{short}_present"] if present else [law]
    return f"    ghost use {path}.{{equality-law as {law}{present}}};\n", laws


def part_laws(message):
    return laws(PARTS_CRATE, snake(message), message, "WireRecord", snake(message))


class OneOfLines:
    """The lines of a oneof's enum and of its impl, which are added member by member."""

    def __init__(self, source, name):
        self.source = source
        self.name = name
        self.variants = f"{snake(name)}_is"
        self.declared, self.members, self.parts, self.merges, self.sizes, self.writes = [], [], [], [], [], []
        self.presents, self.equals, self.laws = [], [], []

    def add(self, member):
        variant, local, number = camel(member.name), bound(member), member.number
        held, kind, rules = self.held(member)
        view = f"{self.variants}.{variant}"
        part = self.source.part(member.kind, member.message, "x")
        search = f"({', '.join(rules)})" if len(rules) > 1 else rules[0]
        self.declared.append(comment(member.comment, "    ") + f"    {variant}({held}),\n")
        self.members.append(f"({number}, {kind})")
        self.parts.append(f"      | {view} x ↦ Member {number} ({part})\n")
        self.merges.append(self.merge(member, variant, local))
        self.sizes.append(f"            {self.name}::{variant}({local}) => {local}.measure_value(size, {number}),\n")
        self.writes.append(f"            {self.name}::{variant}({local}) => {local}.write_value(out, end, {number}),\n")
        self.presents.append(f"{view} x ↦ refl")
        self.equals.append(
            f"      | {view} x ↦ elim [ {view} y ↦ Prim.search {search} | _ ↦ different_members _ _ _ _ refl ]\n"
        )

    def held(self, member):
        """The type that a variant holds, the kind of its field, and the rules by which two of it are equal."""
        if member.kind != "message":
            self.source.kinds.add(KINDS[member.kind])
            return TYPES[member.kind], KINDS[member.kind], ["equality_rules"]
        self.source.uses.add("shared_core_codec::record::WireRecord")
        self.source.kinds.add("Message")
        line, found = part_laws(member.message)
        if line not in self.laws:
            self.laws.append(line)
        return member.message, f"Message tables.{schema_name(member.message)}", ["equality_rules", *found]

    def merge(self, member, variant, local):
        """The arm that merges an occurrence of a member: a message and a text are merged into what is there, or read
        in place if nothing is. A member of another number is replaced only by one that was read."""
        one = f"{self.name}::{variant}"
        if member.kind not in ("message", "text"):
            return f"            {member.number} => *oneof = Some({one}(FieldKind::read_value(field)?)),\n"
        return (
            f"            {member.number} => {{\n"
            "                if oneof.is_none() {\n"
            f"                    *oneof = Some({one}(FieldKind::empty_value(field.alloc)));\n"
            "                }\n"
            f"                if let Some({one}({local})) = oneof {{\n"
            f"                    {local}.merge_value(field)?;\n"
            "                } else {\n"
            f"                    *oneof = Some({one}(FieldKind::read_value(field)?));\n"
            "                }\n"
            "            }\n"
        )


def write_oneof(source, module, name, oneof, about, derived=()):
    """The enum of a oneof and its impl."""
    source.uses |= {
        "shared_core_codec::kind::FieldKind",
        "shared_core_codec::occurrence::Occurrence",
        "shared_core_codec::oneof::OneOf",
        "shared_core_codec::size::Size",
        "shared_core_wire::error::WireError",
    }
    source.values.add("Member")
    source.prelude |= {"[]", "◌∷◌", "refl"}
    source.rules.add("different_members")
    result = source.result()
    lines = OneOfLines(source, name)
    for member in oneof.members:
        lines.add(member)
    source.body.append(
        comment(about)
        + f"#[derive({', '.join(['Debug', 'PartialEq', *derived, 'Drop'])})]\n"
        + f"pub enum {name} {{\n{''.join(lines.declared)}}}\n\n"
        + f"impl OneOf for {name} {{\n"
        + f"    ghost use Rattle.{source.crate}.specs.declared.{module}.{name}.TheVariants as {lines.variants};\n\n"
        + f"    ghost members = {{ {' ∷ '.join(lines.members)} ∷ [] }};\n\n"
        + "    ghost part = { elim [\n"
        + "".join(lines.parts)
        + "    ] };\n\n"
        + "    #[tactic(auto, using(shared_core_codec::proofs::Keeping::part_stays, "
        + "shared_core_codec::proofs::Keeping::member_after))]\n"
        + f"    fn merge_member(oneof: &mut Option<{name}>, field: &Occurrence<'_>) -> {result}<(), WireError> {{\n"
        + "        match field.number {\n"
        + "".join(lines.merges)
        + "            _ => unreachable!(),\n        }\n        Ok(())\n    }\n\n"
        + "    fn measure(&self, size: &mut Size) {\n        match self {\n"
        + "".join(lines.sizes)
        + "        }\n    }\n\n"
        + "    fn encode_back(&self, out: &mut [u8], end: usize) -> usize {\n        match self {\n"
        + "".join(lines.writes)
        + "        }\n    }\n\n"
        + "".join(lines.laws)
        + ("\n" if lines.laws else "")
        + f"    ghost present = {{ elim [ {' | '.join(lines.presents)} ] }};\n\n"
        + "    ghost equality = { elim [\n"
        + "".join(lines.equals)
        + "    ] };\n}\n\n"
    )


class RecordLines:
    """The lines of a record's struct and of its impl, which are added row by row."""

    def __init__(self, source, crate, module, shared):
        self.source = source
        self.crate = crate
        self.module = module
        self.shared = shared
        self.fields, self.parts, self.empties, self.merges, self.sizes, self.writes = [], [], [], [], [], []
        self.laws, self.rules = [], ["equality_rules"]

    def add(self, row):
        self.source.values.add("cons")
        self.fields.append(comment(row.comment, "    "))
        if isinstance(row, OneOf):
            self.add_oneof(row)
        else:
            self.add_field(row)

    def add_oneof(self, row):
        self.source.uses.add("shared_core_codec::oneof::OneOf")
        self.source.views.add("option_part")
        enum = camel(row.name)
        part = f"option_part ⟦<{enum} as OneOf>⟧.part message.{row.name}"
        self.member(row, f"Option<{enum}>", part, "None")
        self.code(" | ".join(str(member.number) for member in row.members), "oneof", None, row.name)
        home, enum_name = self.shared.get(row.name, (self.module, enum))
        self.law(*laws(self.crate, home, enum_name, "OneOf", row.name))

    def add_field(self, row):
        number, at = row.number, f"message.{row.name}"
        held = row.message or TYPES[row.kind]
        if row.kind == "message":
            self.law(*part_laws(row.message))
        if row.presence == "repeated":
            part = f"{self.view('elements_part', row)} {at}.items"
            self.member(row, f"Vec<{held}>", part, "Vec::new(alloc)")
            self.code(number, "packed" if row.kind == "u32" else "repeated", number, row.name)
        elif row.presence in ("optional", "message"):
            self.member(row, f"Option<{held}>", f"{self.view('option_part', row)} {at}", "None")
            self.code(number, "optional", number, row.name)
        else:
            self.member(row, held, self.source.part(row.kind, None, at), EMPTY[row.kind])
            self.code(number, "plain", number, row.name)

    def view(self, part, row):
        """How a part with a presence is seen: by the view of what it holds."""
        self.source.views.add(part)
        view = self.source.part(row.kind, row.message, "")
        return f"{part} ({view})" if " " in view else f"{part} {view}"

    def member(self, row, held, part, empty):
        """A member of the struct: its type, its part of the value, and what it is in the empty record."""
        self.fields.append(f"    pub {row.name}: {held},\n")
        self.parts.append(part)
        self.empties.append(f"            {row.name}: {empty},\n")

    def code(self, numbers, presence, number, name):
        """The lines that merge, measure and write a row."""
        merge, size, write = self.source.lines(presence, number, name)
        self.merges.append(f"            {numbers} => {merge}")
        self.sizes.append(size)
        self.writes.append(write)

    def law(self, line, found):
        """The law by which two of what a row holds are equal."""
        if line not in self.laws:
            self.laws.append(line)
            self.rules.extend(found)

    def value(self):
        """The parts of the value, in order."""
        value = "nil"
        for part in reversed(self.parts):
            value = f"cons ({part})\n        ({value})" if value != "nil" else f"cons ({part}) nil"
        return value

    def bodies(self):
        """The bodies of `merge_field` and `encode_back`; the last field is written first."""
        if not self.parts:
            return "        Ok(())\n", "        end\n"
        merge = (
            "        match field.number {\n" + "".join(self.merges) + "            _ => {}\n        }\n        Ok(())\n"
        )
        write = "".join(f"        let end = {line};\n" for line in reversed(self.writes[1:]))
        return merge, write + f"        {self.writes[0]}\n"


def write_record(source, crate, message, shared):
    """The struct of a message and its impl."""
    name = message.name
    source.uses |= {
        "shared_core_codec::occurrence::Occurrence",
        "shared_core_codec::record::WireRecord",
        "shared_core_codec::size::Size",
        "shared_core_wire::error::WireError",
        "std::alloc::Global",
    }
    source.values.add("nil")
    lines = RecordLines(source, crate, snake(name), shared)
    for row in message.rows:
        lines.add(row)
    alloc = "alloc" if any("alloc" in empty for empty in lines.empties) else "_alloc"
    result = source.result()
    search = f"({', '.join(lines.rules)})" if len(lines.rules) > 1 else lines.rules[0]
    depth = f" depth {2 * len(message.rows) + 12}" if message.rows else ""
    merge, write = lines.bodies()
    declared = "{\n" + "".join(lines.fields) + "}" if message.rows else "{}"
    built = "{\n" + "".join(lines.empties) + "        }" if message.rows else "{}"
    unused = "" if message.rows else "_"
    binder = "message" if message.rows else "_"
    source.body.append(
        comment(message.comment)
        + f"#[derive(Debug, PartialEq, Drop)]\npub struct {name} {declared}\n\n"
        + f"impl WireRecord for {name} {{\n"
        + f"    ghost schema = {{ tables.{schema_name(name)} }};\n\n"
        + f"    ghost parts = {{ λ {binder}. {lines.value()} }};\n\n"
        + f"    fn empty({alloc}: Global) -> {name} {{\n        {name} {built}\n    }}\n\n"
        + "    #[tactic(auto, using(shared_core_codec::proofs::Keeping::rows_stay))]\n"
        + f"    fn merge_field(&mut self, {unused}field: &Occurrence<'_>) -> {result}<(), WireError> {{\n"
        f"{merge}    }}\n\n"
        + f"    fn measure(&self, {unused}size: &mut Size) {{\n{''.join(lines.sizes)}    }}\n\n"
        + f"    fn encode_back(&self, {unused}out: &mut [u8], end: usize) -> usize {{\n{write}    }}\n\n"
        + "".join(lines.laws)
        + ("\n" if lines.laws else "")
        + f"    ghost equality = {{ Prim.search {search}{depth} }};\n}}\n"
    )


def write_message(source, message):
    """The impl that says a record's type."""
    name = message.name
    ty = TYPE_OF.get(name, name.removesuffix("Message"))
    result = source.result()
    source.ghosts.add("Rattle.shared_core_base.specs.declared.header.MessageType.TheVariants as types")
    source.uses |= {"shared_core_base::header::MessageType", "shared_core_message::restate_message::RestateMessage"}
    # a suspension has a second record, of the form before V7
    own_schema = "inr (refl, refl)" if name in TYPE_OF else "inl refl"
    source.prelude.add("refl")
    source.ghosts.add(f"Rattle.std.proofs.Common.{{{own_schema.split()[0]}}}")
    source.body.append(
        f"\nimpl RestateMessage for {name} {{\n"
        f"    ghost message_type = {{ types.{ty} }};\n\n"
        f"    fn ty() -> MessageType {{\n        MessageType::{ty}\n    }}\n\n"
        "    ghost named = { tt };\n\n"
        f"    ghost own_schema = {{ {own_schema} }};\n}}\n"
    )


def is_alike(oneof, other):
    """Whether two oneofs have the same members at the same numbers, so that one enum can be both."""
    def members(row):
        return [(member.name, member.number, member.kind, member.message) for member in row.members]

    return members(oneof) == members(other)


def shared_oneofs(crate, table):
    """The oneofs that messages of a crate share: the module, the enum's name, what it is, the oneof, and each message
    with its field. A message whose oneof is not that of the first one keeps an enum of its own."""
    found = []
    for module, enum, about, names in SHARED.get(crate, []):
        oneof, users = None, []
        for name in names:
            for row in table[name].rows if name in table else ():
                if isinstance(row, OneOf) and (oneof is None or is_alike(row, oneof)):
                    oneof = oneof or row
                    users.append((name, row.name))
        if users:
            found.append((module, enum, about, oneof, users))
    return found


def crate_files(crate):
    """The files of a crate by their paths, not yet laid out."""
    about, names = CRATES[crate]
    table = {message.name: message for message in messages()}
    folder = f"crates/{crate}/src"
    files = {}
    homes = {}
    modules = []
    for module, enum, text, oneof, users in shared_oneofs(crate, table):
        for user, field in users:
            homes.setdefault(user, {})[field] = (module, enum)
        source = Source(crate, text)
        write_oneof(source, module, enum, oneof, text)
        files[f"{folder}/{module}.rt"] = source.text().rstrip("\n") + "\n"
        modules.append(module)
    for name in names:
        message = table[name]
        module = snake(name)
        source = Source(crate, f"The record `{name}`.")
        shared = homes.get(name, {})
        oneofs = [row for row in message.rows if isinstance(row, OneOf)]
        source.shadowed = any(row.name == "result" for row in oneofs)
        shows = ""
        for row in oneofs:
            if row.name in shared:
                home, enum = shared[row.name]
                shows += f"pub use crate::{home}::{enum} as {camel(row.name)};\n"
            else:
                write_oneof(source, module, camel(row.name), row, row.comment, DERIVED.get((name, row.name), ()))
        write_record(source, crate, message, shared)
        if crate != PARTS_CRATE:
            write_message(source, message)
        text = source.text()
        if shows:
            head, rest = text.split("\n\nuse ", 1)
            text = f"{head}\n\n{shows}\nuse {rest}"
        files[f"{folder}/{module}.rt"] = text
        modules.append(module)
    by_hand = BY_HAND.get(crate, []) + ([snake(name) for name in HAND_WRITTEN] if crate == PARTS_CRATE else [])
    modules = [(module, "pub ") for module in modules + by_hand] + [(module, "") for module in INNER.get(crate, [])]
    lib = f"//! {about}\n#![tactic(auto)]\n\n" + "".join(f"{seen}mod {module};\n" for module, seen in sorted(modules))
    names = names + (list(HAND_WRITTEN) if crate == PARTS_CRATE else [])
    shown = [f"{snake(name)}::{name}" for name in names] + SHOWN.get(crate, [])
    lib += "\n" + "".join(f"pub use crate::{path};\n" for path in sorted(shown))
    files[f"{folder}/lib.rt"] = lib
    return files


def texts():
    """The files of all crates, not yet laid out."""
    return {path: text for crate in CRATES for path, text in crate_files(crate).items()}


def paths():
    return list(texts())


def files():
    return laid_out(texts())
