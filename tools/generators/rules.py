"""What a description of the protocol has to be, so that all files can be made of it: all that is checked is here.

protoc has read it, so numbers of fields, types and options are what proto3 allows. All that is wrong is said at once.
"""
import collections
import re

from . import ROOT, Refused, forms
from .model import NOTIFICATIONS, OneOf, camel, fields_of, json_name, members_of, schema_name, snake

SOURCE = "proto/journal.proto"


class Problems:
    """What is wrong, each with the line of it."""

    def __init__(self):
        self.found = []

    def say(self, text, line):
        self.found.append((line, text))

    def end(self):
        """Ends the program if something is wrong."""
        if self.found:
            raise Refused([f"{SOURCE}:{line}: {text}" for line, text in sorted(self.found)])


def check(found, described):
    """Rejects what no file can be made of: what the library lacks, and what contradicts itself."""
    problems = Problems()
    check_file(problems, described)
    check_enums(problems, described)
    known = {}
    for message in found:
        known.setdefault(message.name, message)
    check_names(problems, found)
    for message in found:
        check_message(problems, message)
        check_fields(problems, message, known)
    check_schemas(problems, found)
    check_part_names(problems, found)
    check_types(problems, found)
    # what follows asks what messages hold, and so that they hold what the library has
    problems.end()
    check_cycles(problems, found)
    check_hand_written(problems, known)
    check_rows(problems, known)
    check_flat_suspension(problems, known)
    check_commands(problems, found)
    check_template(problems, found, known)
    problems.end()


def check_file(problems, described):
    """Rejects another language than proto3, and services."""
    if described.syntax != "proto3":
        problems.say(f"the file is in {described.syntax}: it begins with syntax = \"proto3\"", 1)
    for service in described.services:
        problems.say(f"{service.name} is a service, and the library has none", service.line)


def check_enums(problems, described):
    """Rejects enums that are within messages, and values that no table has."""
    for enum in described.enums:
        if enum.within:
            problems.say(f"{enum.name} is within {enum.within}: enums are beside messages", enum.line)
        if enum.name in forms.TYPE_NAMES | forms.PACKAGE_TYPES:
            problems.say(f"an enum cannot be called {enum.name}: code has that name", enum.line)
        numbered = {}
        for name, number, line in enum.values:
            if name in forms.TAKEN_VALUES or not re.fullmatch(r"(?!(.*_)?(?i:self)$)[A-Za-z][A-Za-z0-9_]*", name):
                problems.say(f"a value of {enum.name} cannot be called {name}: a language has that word", line)
            if number < 0:
                problems.say(f"{name} of {enum.name} is {number}: values with names are 0 or more", line)
            if number in numbered:
                problems.say(
                    f"{name} of {enum.name} has the number of {numbered[number]}: each value has one name", line
                )
            numbered.setdefault(number, name)


def check_names(problems, found):
    """Rejects names of messages that code cannot have, or that lead to the same place."""
    taken = {module for modules in (*forms.BY_HAND.values(), *forms.INNER.values()) for module in modules} | {"lib"}
    seen, places = set(), {}
    for message in found:
        name, place = message.name, schema_name(message.name)
        if message.within:
            problems.say(f"{name} is within {message.within}: messages are beside each other", message.line)
        if name in seen:
            problems.say(f"there is a message {name} before this one", message.line)
            continue
        seen.add(name)
        if not re.fullmatch(r"[A-Z][A-Za-z0-9]*", name):
            problems.say(f"the name {name} is not in UpperCamelCase", message.line)
        elif name in forms.TYPE_NAMES | forms.PACKAGE_TYPES or snake(name) in taken:
            problems.say(f"a message cannot be called {name}: the code of the library has that name", message.line)
        if place in forms.TABLE_NAMES | forms.RESERVED or place in places:
            other = places.get(place, "the table of schemas or the language")
            problems.say(
                f"{name} cannot have its place in the table of schemas under {place}, since {other} has it",
                message.line,
            )
        places.setdefault(place, name)


def check_message(problems, message):
    """Rejects a message without a comment, and names in it that code cannot have."""
    name = message.name
    if not message.comment:
        problems.say(f"{name} has no comment, which its record would have", message.line)
    variants = {}
    for row in message.rows:
        for one in [row, *row.members] if isinstance(row, OneOf) else [row]:
            if one.name in forms.RESERVED or not re.fullmatch(r"[a-z][a-z0-9_]*", one.name):
                problems.say(
                    f"the name {one.name} in {name} is a word of the language, or not in lower_snake_case", one.line
                )
            elif one.name in forms.TAKEN:
                problems.say(f"a language has another use for the name {one.name} in {name}", one.line)
            if not one.comment:
                problems.say(f"{one.name} of {name} has no comment, which its record would have", one.line)
        if isinstance(row, OneOf):
            check_oneof(problems, message, row, variants)


def check_oneof(problems, message, oneof, variants):
    """Rejects a oneof whose enum or whose variants would have the name of something else."""
    enum = camel(oneof.name)
    held = {field.message for field in fields_of(message)} | {message.name} | forms.TYPE_NAMES - {"Result"}
    if enum in held or enum in variants:
        problems.say(
            f"the oneof {oneof.name} of {message.name} cannot have an enum {enum}: that is another type there",
            oneof.line,
        )
    variants[enum] = oneof
    seen = {}
    for member in oneof.members:
        variant = camel(member.name)
        if variant in seen:
            problems.say(
                f"{member.name} and {seen[variant]} of {message.name} would both be the variant {variant}", member.line
            )
        seen.setdefault(variant, member.name)


def check_fields(problems, message, known):
    """Rejects fields of kinds that the library lacks."""
    name = message.name
    for field in fields_of(message):
        at = f"{field.name} of {name}"
        if field.kind == "other":
            lists = "a list of " if field.presence == "repeated" else "a "
            problems.say(
                f"{at} is {lists}{field.type_name}: the library has {', '.join(forms.SCALARS)}, enums and messages",
                field.line,
            )
        elif field.message and field.message not in known:
            problems.say(f"{at} is a {field.message}, and there is no such message in {SOURCE}", field.line)
        elif field.presence == "repeated" and field.kind in forms.NOT_REPEATED:
            problems.say(
                f"{at} is a list of {forms.NOT_REPEATED[field.kind]}: the library has lists of uint32, string, bytes "
                f"and messages",
                field.line,
            )
        elif field.message and known[field.message].code is not None:
            problems.say(
                f"{at} is a {field.message}, which is the message of a type: fields hold messages without a code",
                field.line,
            )
        if field.packed == 0 and field.presence == "repeated":
            problems.say(f"{at} is not packed: the library writes numbers in one record", field.line)
        if field.json_name is not None:
            problems.say(
                f"{at} is called {field.json_name} in JSON: the library has {json_name(field.name)} for it", field.line
            )


def check_schemas(problems, found):
    """Rejects messages whose schemas are not the numbers from 0 on."""
    seen = {}
    for message in found:
        if message.schema is None:
            problems.say(
                f"{message.name} has no option (schema), the number of its place: behind the last one if it is new",
                message.line,
            )
        elif message.schema in seen:
            problems.say(f"{message.name} has the schema {message.schema} of {seen[message.schema]}", message.line)
        elif message.schema >= len(found):
            problems.say(
                f"{message.name} has the schema {message.schema}, and the {len(found)} messages have those below "
                f"{len(found)}",
                message.line,
            )
        seen.setdefault(message.schema, message.name)


def check_part_names(problems, found):
    """Rejects fields of messages without a code that would have one name in the table of fields."""
    seen = {}
    for message in found:
        for field in fields_of(message) if message.code is None else ():
            name = f"{schema_name(message.name)}_{field.name}"
            if name in seen:
                problems.say(
                    f"{field.name} of {message.name} and {seen[name]} have one name in the table of fields, {name}",
                    field.line,
                )
            seen.setdefault(name, f"{field.name} of {message.name}")


def check_types(problems, found):
    """Rejects codes, and what belongs to them, that contradict each other."""
    last, commands = {}, {}
    for message in found:
        if message.code is None:
            if message.command or message.also_sent_for or message.before_version is not None:
                problems.say(f"{message.name} has an option of a type, and no option (code)", message.line)
            continue
        check_type(problems, message)
        if message.before_version is None:
            if message.code in last:
                problems.say(f"{message.name} has the code of {last[message.code].name}", message.line)
            last.setdefault(message.code, message)
        for command in (message.command, message.also_sent_for):
            if command is not None and not command.text:
                problems.say(f"a command of {message.name} has no text", message.line)
        if message.command is not None:
            other = commands.setdefault(message.command.name, message)
            if other.command.text != message.command.text:
                problems.say(
                    f"{message.name} has another text than {other.name}, which is of the same command type",
                    message.line,
                )
    for message in found:
        if message.before_version is not None and message.code is not None and message.code not in last:
            problems.say(
                f"{message.name} is of versions before {message.before_version}, and no message has its code from "
                "there on",
                message.line,
            )


def check_type(problems, message):
    """Rejects a message whose name or whose options are not those of its code."""
    name, code = message.name, f"0x{message.code:04X}"
    if message.code >= NOTIFICATIONS.stop:
        problems.say(
            f"{name} has the code {code}, where the codes of types end at 0x{NOTIFICATIONS.stop - 1:04X}", message.line
        )
        return
    if message.before_version is not None:
        if message.before_version not in forms.LATER_VERSIONS:
            problems.say(
                f"{name} is of versions before {message.before_version}, which is none of {forms.LATER_VERSIONS[0]} to "
                f"{forms.LATER_VERSIONS[-1]}",
                message.line,
            )
        return
    kind = "Command" if message.is_command() else "Notification" if message.is_notification() else ""
    end = f"{kind}Message"
    if not name.endswith(end) or name == end:
        problems.say(f"{name} has the code {code}, and so its name has to end with {end}", message.line)
    if message.is_command() != (message.command is not None):
        problems.say(
            f"{name} has {'no' if message.is_command() else 'an'} option (command), against its code {code}",
            message.line,
        )


def check_cycles(problems, found):
    """Rejects a message that holds itself, but those whose records are hand-written."""
    held = {message.name: [field.message for field in fields_of(message) if field.message] for message in found}
    lines = {message.name: message.line for message in found}
    said = set()

    def walk(name, way):
        for other in held[name]:
            if other == way[0]:
                return way
            if other not in way and (longer := walk(other, [*way, other])):
                return longer
        return None

    for name in held:
        way = walk(name, [name])
        if way and not set(way) <= {*forms.HAND_WRITTEN, *said}:
            said |= set(way)
            problems.say(
                f"{name} holds itself ({' in '.join([name, *reversed(way)])}): its record has functions that call "
                "themselves, which the generic ones of other records cannot; hand-write it as future.rt of "
                "shared_core_parts, "
                "and list it in HAND_WRITTEN of tools/generators/forms.py",
                lines[name],
            )


def held_type(field):
    """The type of a field of a struct."""
    held = field.message or forms.TYPES[field.kind]
    return {"repeated": f"Vec<{held}>", "plain": held}.get(field.presence, f"Option<{held}>")


def check_hand_written(problems, known):
    """Rejects a description without the messages whose records are hand-written, or with other fields of them."""
    for name in (*forms.HAND_WRITTEN, forms.TEMPLATE):
        if name not in known:
            problems.say(f"there is no message {name}, for which there is hand-written code", 1)
    for name in forms.HAND_WRITTEN:
        if name not in known:
            continue
        path = f"crates/{forms.PARTS_CRATE}/src/{snake(name)}.rt"
        source = (ROOT / path).read_text(encoding="utf-8")
        held = re.search(rf"^pub struct {name} \{{\n(.*?)^\}}", source, re.M | re.S)
        written = dict(re.findall(r"^    pub (\w+): (.+),$", held[1], re.M)) if held else {}
        fields = {field.name: field for field in fields_of(known[name])}
        for field in fields.values():
            if written.get(field.name) != held_type(field):
                problems.say(
                    f"{path} is hand-written, and has no {field.name} that is a {held_type(field)}", field.line
                )
        for other in sorted(set(written) - set(fields)):
            problems.say(f"{path} is hand-written, and has a field {other}, which {name} has not", known[name].line)


def check_rows(problems, known):
    """Rejects further rows of the messages that hand-written code takes apart, or makes of those that it knows."""
    for name, rows in forms.ROWS.items():
        for row in known[name].rows if name in known else ():
            if row.name not in rows:
                problems.say(
                    f"{row.name} in {name} has no form: hand-written code makes {name} of "
                    f"{', '.join(sorted(rows))} alone",
                    row.line,
                )


def check_flat_suspension(problems, known):
    """Rejects another order of the three lists of a suspension before version 7 than that of flat_suspension.rt."""
    message = known.get("SuspensionMessageV6")
    order = ["waiting_completions", "waiting_signals", "waiting_named_signals"]
    if message is None:
        problems.say("there is no message SuspensionMessageV6, for which there is hand-written code", 1)
    elif [field.name for field in sorted(fields_of(message), key=lambda field: field.number)] != order:
        problems.say(
            f"{message.name} has to have {', '.join(order)}, with numbers in this order: flat_suspension.rt of "
            f"shared_core_runtime "
            "is hand-written for it",
            message.line,
        )


def check_commands(problems, found):
    """Rejects commands of which a field is compared and has no form in which it is printed."""
    commands = [message for message in found if message.is_command()]
    named = [
        (
            row.number, message
        ) for message in commands for row in message.rows if row.name == "name" and not isinstance(row, OneOf)
    ]
    if not named:
        problems.say("no command has a text name", 1)
        return
    number = collections.Counter(number for number, _ in named).most_common(1)[0][0]
    printed = forms.printed_messages()
    for message in commands:
        name = name_of(message, number)
        if name is None:
            problems.say(f"{message.name} has no text {number}, its name, as other commands have", message.line)
        check_printed(problems, message, printed)
        for row in message.rows:
            is_compared = not any(member.not_compared for member in members_of(row))
            if is_compared and row is not name and row.printed is None:
                problems.say(
                    f"{row.name} of {message.name} is compared, and so has to be printed: it lacks (printed), or "
                    "(not_compared)",
                    row.line,
                )
            if any(member.payload for member in members_of(row)) and not has_payload_form(row):
                problems.say(f"there is no form yet that compares {row.name} of {message.name} as a payload", row.line)
    for message in found:
        if message.is_command():
            continue
        for row in message.rows:
            if row.printed is not None or any(member.not_compared or member.payload for member in members_of(row)):
                problems.say(
                    f"{row.name} of {message.name} has an option of the fields of commands, and is in none", row.line
                )


def name_of(message, number):
    """The field that names a command, or None."""
    for row in message.rows:
        if not isinstance(row, OneOf) and row.number == number and (row.presence, row.kind) == ("plain", "text"):
            return row
    return None


def has_payload_form(row):
    """Whether there is code that compares a payload in this row."""
    if isinstance(row, OneOf):
        return all(member.message for member in row.members if member.payload)
    return row.presence != "repeated" and bool(row.message) or (row.presence, row.kind) == ("plain", "bytes")


def check_printed(problems, message, printed):
    """Rejects fields that are printed in no order, and those that have no form."""
    rows = sorted((row for row in message.rows if row.printed is not None), key=lambda row: row.printed)
    if [row.printed for row in rows] != list(range(1, len(rows) + 1)):
        listed = ", ".join(str(row.printed) for row in rows)
        problems.say(
            f"the lines that {message.name} prints are {listed}: they are numbered from 1 on by (printed), each once",
            message.line,
        )
    for row in rows:
        for field in members_of(row):
            at = f"{field.name} of {message.name}"
            if not isinstance(row, OneOf) and forms.writer(row) is None:
                problems.say(f"there is no form yet that prints {at}, a list of {field.type_name}", field.line)
            elif field.presence == "repeated":
                continue
            elif field.message and field.message not in printed:
                problems.say(
                    f"there is no form yet that prints {at}: {field.message} has no text in printed.rt and "
                    f"specs/Differences.antt of "
                    "shared_core_compare",
                    field.line,
                )


def check_template(problems, found, known):
    """Rejects a notification whose rows are none of the template's: each is a part of one of these, and no two of the
    same one."""
    template = known.get(forms.TEMPLATE)
    if template is None:
        return
    homes = {field.number: (row.name, field) for row in template.rows for field in members_of(row)}
    for message in found:
        if message.is_notification():
            check_notification(problems, message, template, homes)


def check_notification(problems, message, template, homes):
    """Rejects rows of a notification that are none of the template's."""
    taken = {}
    for row in message.rows:
        if not isinstance(row, OneOf) and row.presence == "repeated":
            problems.say(f"{row.name} of {message.name} is a list, and no row of {template.name} is", row.line)
        home = None
        for field in members_of(row):
            home, other = homes.get(field.number, (None, None))
            held = field.message or field.kind
            if other is None or held != (other.message or other.kind):
                there = "none" if other is None else f"{other.name}, a {other.message or other.kind}"
                problems.say(
                    f"{field.name} of {message.name} is a {held} at {field.number}, and the field of {template.name} "
                    f"at "
                    f"that number is {there}; the rows of a notification are rows of it",
                    field.line,
                )
            elif taken.setdefault(row.name, home) != home:
                problems.say(
                    f"{row.name} of {message.name} has members of both {taken[row.name]} and {home} of {template.name}",
                    row.line,
                )
        if home is not None and list(taken.values()).count(home) > 1:
            problems.say(
                f"{row.name} of {message.name} is a second row with numbers of {home} of {template.name}", row.line
            )
