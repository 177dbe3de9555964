"""How the commands of proto/journal.proto are compared, and how their differences are printed.

One file a command, one for each oneof that several commands share, the module of these, and for a command with printed
fields the proof that they follow each other.
"""
from . import laid_out
from . import missing_rt as missing  # noqa: F401
from .forms import bound, writer
from .proto import OneOf, camel, fields_of, messages, numbers, snake
from .records import COMMAND_CRATES, CRATES, shared_oneofs

CRATE = "shared_core_compare"

ABOUT = "How commands are compared and printed, in Rattle."
SOURCE = "proto/journal.proto"

HEADING = "The impls of each command and of each oneof that a difference prints: other modules need no name of theirs."


def name_number():
    """The number of the field that names a command, one for all commands."""
    return next(
        row.number for message in messages() if message.is_command() for row in message.rows if row.name == "name"
    )


class Entry:
    """What the description says of a command: the numbers of the fields that are never compared, those of its payloads,
    and the numbers and names of the printed fields, in order."""

    def __init__(self, message):
        fields = fields_of(message)
        self.not_compared = sorted(field.number for field in fields if field.not_compared)
        self.payloads = sorted(field.number for field in fields if field.payload)
        lines = sorted((row.printed, min(numbers(row)), row.name) for row in message.rows if row.printed is not None)
        self.printed = [(number, name) for _, number, name in lines]


class Command:
    """A command: its message, the crate of its record and its entry."""

    def __init__(self, message, crate, entry):
        self.message = message
        self.crate = crate
        self.entry = entry
        self.module = snake(message.name)

    def row(self, number):
        """The field of this number, or the oneof whose least number it is."""
        return next((row for row in self.message.rows if min(numbers(row)) == number), None)

    def compared(self):
        """The fields that are compared, in the order of the rows, by which the proof of the comparison goes."""
        return [row for row in self.message.rows if not set(numbers(row)) & set(self.entry.not_compared)]

    def is_payload(self, row):
        return bool(set(numbers(row)) & set(self.entry.payloads))

    def printed(self):
        """The printed fields, in order."""
        return [self.row(number) for number, _ in self.entry.printed]


def commands(crates, table):
    """The commands of some crates, each with its entry."""
    return [
        Command(table[name], crate, Entry(table[name]))
        for crate, names in crates.items()
        for name in names
        if table[name].is_command()
    ]


class Source:
    """The source of one file, with the names that it uses."""

    def __init__(self, heading):
        self.heading = heading
        self.uses = {}
        self.ghosts = {}
        self.aliases = set()
        self.body = []

    def use(self, module, name):
        """Brings a name of a module into scope, and returns it."""
        self.uses.setdefault(module, set()).add(name)
        return name

    def ghost(self, module, *names):
        self.ghosts.setdefault(module, set()).update(names)

    def text(self):
        ghosts = [
            f"ghost use Rattle.{module}.{{{', '.join(sorted(names))}}};\n" for module, names in self.ghosts.items()
        ]
        ghosts += [f"ghost use Rattle.{alias};\n" for alias in sorted(self.aliases)]
        uses = []
        for module, names in self.uses.items():
            listed = ", ".join(sorted(names))
            uses.append(f"use {module}::{{{listed}}};\n" if len(names) > 1 else f"use {module}::{listed};\n")
        blocks = ["".join(ghosts), "".join(sorted(uses)), *self.body]
        return "\n".join([f"//! {self.heading}\n", *(block for block in blocks if block)])


def write_same_but_payload(source, command, oneof):
    """The function that compares a oneof where payloads are ignored."""
    enum = source.use(f"{command.crate}::{command.module}", camel(oneof.name))
    source.use("crate::equality", "same_oneof")
    source.use("shared_core_codec::oneof", "OneOf")
    source.ghost("std.specs.Prelude", "◌≡◌", "◌↔◌", "◌∷◌", "[]", "IsTrue")
    source.aliases.add("shared_core_wire.specs.Schema as row")
    source.ghost("shared_core_codec.specs.FieldParts", "option_part")
    source.ghost("shared_core_compare.specs.Erasure", "without_payloads")
    members = [member for member in oneof.members if member.number in command.entry.payloads]
    erased = " ∷ ".join([str(member.number) for member in members] + ["[]"])
    contents = " or a ".join(member.name.replace("_", " ") for member in members)
    arms = "".join(
        f"        (Some({enum}::{camel(member.name)}(_)), Some({enum}::{camel(member.name)}(_))) => true,\n"
        for member in members
    )

    def without(value):
        return (
            f"without_payloads ({erased}) (row.OneOf ⟦<{enum} as OneOf>⟧.members) "
            f"(option_part ⟦<{enum} as OneOf>⟧.part {value}.now)"
        )

    source.body.append(
        f"/// Whether two {oneof.name}s are the same except for the content of a {contents}.\n"
        f"fn same_but_payload(oneof: &Option<{enum}>, other: &Option<{enum}>) -> bool\n"
        f"    ensures {{ IsTrue result ↔ ({without('oneof')}\n        ≡ {without('other')}) }}\n"
        f"{{\n    match (oneof, other) {{\n{arms}        _ => same_oneof(oneof, other),\n    }}\n}}\n"
    )


def same(source, command, row):
    """The test whether a field is the same in two commands."""
    both = f"self.{row.name}", f"other.{row.name}"
    equal = f"{both[0]} == {both[1]}"
    lent = f"(&{both[0]}, &{both[1]})"
    if isinstance(row, OneOf):
        test = source.use("crate::equality", "same_oneof") + lent
        if not command.is_payload(row):
            return test
        return f"if ignore_payload_equality {{ same_but_payload{lent} }} else {{ {test} }}"
    if command.is_payload(row):
        if row.message:
            return f"if ignore_payload_equality {{ {both[0]}.is_some() == {both[1]}.is_some() }} else {{ {equal} }}"
        return f"(ignore_payload_equality || {equal})"
    if row.presence == "repeated":
        module, function = ("equality", "same_messages") if row.message else ("values", "same_list")
        return source.use(f"crate::{module}", function) + lent
    return source.use("crate::equality", "same_message") + lent if row.message else equal


def write_equality(source, command):
    """The impl that compares a command."""
    trait = source.use("crate::equality", "CommandMessageHeaderEq")
    rows = command.compared()
    other, ignored = "other", "_ignore_payload_equality"
    if not rows:
        other, test = "_other", "true"
    elif not command.entry.not_compared and not command.entry.payloads:
        test = source.use("crate::equality", "same_record") + "(self, other)"
    else:
        if any(command.is_payload(row) for row in rows):
            ignored = ignored.removeprefix("_")
        tests = [same(source, command, row) for row in rows]
        test = " && ".join([*(f"({one})" if one.startswith("if ") else one for one in tests[:-1]), tests[-1]])
    source.body.append(
        f"impl {trait} for {command.message.name} {{\n"
        f"    fn header_eq(&self, {other}: &Self, {ignored}: bool) -> bool {{\n        {test}\n    }}\n}}\n"
    )


def write_printed_oneof(source, path, oneof):
    """The impl that prints the members of a oneof, whose enum is at a path."""
    module, enum = path
    source.use(module, enum)
    source.use("crate::printed", "PrintedOneOf")
    source.use("std", "fmt")
    source.use("std::fmt", "Formatter")
    arms = ""
    for member in oneof.members:
        local = bound(member)
        if member.kind == "message":
            source.use("crate::printed", "PrintedMessage")
            print_member = f"{local}.write_message(f)"
        elif member.kind in ("u32", "text"):
            print_member = f'write!(f, "{{{local}}}")'
        else:
            source.use("crate::values", "PrintedValue")
            print_member = f"{local}.write_text(f)"
        arms += f"            {enum}::{camel(member.name)}({local}) => {print_member},\n"
    source.body.append(
        f"impl PrintedOneOf for {enum} {{\n"
        "    fn write_member<W: fmt::Write>(&self, f: &mut Formatter<W>) -> fmt::Result {\n"
        f"        match self {{\n{arms}        }}\n    }}\n}}\n"
    )


def writing(row):
    """The module and the function that write a field in which two commands differ."""
    return ("difference", "write_oneof") if isinstance(row, OneOf) else writer(row)


def write_difference(source, command):
    """The impl that writes the fields in which two commands differ."""
    trait = source.use("crate::difference", "CommandMessageHeaderDiff")
    form = source.use("crate::difference", "DifferenceForm")
    source.use("std", "fmt")
    source.ghost("std.specs.Prelude", "refl")
    calls = []
    for row in command.printed():
        module, name = writing(row)
        by = "" if name == "write_number" else "&"
        function = source.use(f"crate::{module}", name)
        calls.append(f'{function}(form, out, "{row.name}", {by}self.{row.name}, {by}expected.{row.name})')
    unused = "" if calls else "_"
    lines = "".join(f"        {call}?;\n" for call in calls[:-1]) + f"        {calls[-1] if calls else 'Ok(())'}\n"
    source.body.append(
        f"impl {trait} for {command.message.name} {{\n"
        f"    fn write_fields<T, F: {form}<T>>(&self, {unused}expected: &Self, {unused}form: &F, {unused}out: &mut T)"
        f" -> fmt::Result {{\n{lines}    }}\n\n"
        "    ghost printed_whole = { refl };\n}\n"
    )


def write_command(command, shared):
    """The source of a command's file. Oneofs that are shared have files of their own."""
    message = command.message
    source = Source(f"`{message.name}` compared.")
    source.use(command.crate, message.name)
    for row in message.rows:
        if isinstance(row, OneOf) and command.is_payload(row):
            write_same_but_payload(source, command, row)
    trait = source.use("crate::name", "NamedCommandMessage")
    source.body.append(
        f"impl {trait} for {message.name} {{\n"
        f"    fn command_name(&self) -> &str {{\n        &self.{command.row(name_number()).name}\n    }}\n}}\n"
    )
    write_equality(source, command)
    for row in command.printed():
        if isinstance(row, OneOf) and row.name not in shared:
            write_printed_oneof(source, (f"{command.crate}::{command.module}", camel(row.name)), row)
    write_difference(source, command)
    return source.text()


def chained_fields(command):
    """The proof that a command's fields follow each other, which the prover does not find by itself beyond six, or
    through definitions that it must not open."""
    method = f"{command.module}.{command.message.name}CommandMessageHeaderDiff.write_fields"
    path = f"Rattle.{CRATE}.proofs.commands.{method}.Goals"
    counts = {}
    steps = ""
    rows = command.printed()
    for at, row in enumerate(rows, 1):
        _, call = writing(row)
        counts[call] = counts.get(call, 0) + 1
        if counts[call] > 1:
            call += f"-{counts[call]}"
        last = at == len(rows)
        steps += (
            f"    let w{at} = c.{call if last else f'in_ok-{call}'}.ensures "
            f"{'ok' if last else '(refl {a = true})'} in\n"
        )
    chain = "nothing_written writes _"
    for at in range(len(rows), 0, -1):
        chain = f"append _ _ _ _ _ w{at}\n        ({chain})"
    return (
        ("use Rattle.std.proofs.Common.{refl, true}\n" if len(rows) > 1 else "")
        + f"use Rattle.{CRATE}.proofs.Fields.{{fields_append, nothing_written}}\n"
        f"use {path} as goal\n\n"
        "pub returns : goal.returns\nreturns g c ok =\n    let writes = g.F.DifferenceForm.writes c.args.form.now in\n"
        f"{steps}"
        f"    let append = fields_append writes in\n    {chain}\n"
    )


def texts():
    """The files of the crate by their paths, not yet laid out."""
    crates = {name: CRATES[name][1] for name in COMMAND_CRATES}
    table = {message.name: message for message in messages()}
    sources = f"crates/{CRATE}/src/commands"
    found = {}
    modules = set()
    homes = {}
    for crate in crates:
        for module, enum, _, oneof, users in shared_oneofs(crate, table):
            for user, name in users:
                homes.setdefault(user, {})[name] = (crate, module, enum, oneof)
    printed = {}
    for command in commands(crates, table):
        shared = homes.get(command.message.name, {})
        found[f"{sources}/{command.module}.rt"] = write_command(command, shared)
        modules.add(command.module)
        for row in command.printed():
            if row.name in shared:
                crate, module, enum, oneof = shared[row.name]
                printed[module] = (f"{crate}::{module}", enum), oneof
        if command.printed():
            method = f"{command.module}/{command.message.name}CommandMessageHeaderDiff/write_fields"
            proofs = f"crates/{CRATE}/proofs/commands/{method}"
            found[f"{proofs}/Answers.antt"] = chained_fields(command)
    for module, (path, oneof) in printed.items():
        source = Source(f"`{path[1]}` printed.")
        write_printed_oneof(source, path, oneof)
        found[f"{sources}/{module}.rt"] = source.text()
        modules.add(module)
    declared = "".join(f"mod {module};\n" for module in sorted(modules))
    found[f"{sources}.rt"] = f"//! {HEADING}\n\n{declared}"
    return found


def paths():
    return list(texts())


def files():
    return laid_out(texts())
