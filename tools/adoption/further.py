"""What is only there: fields, oneofs, messages, enums and values that are added to the description."""
import re

from generators.model import COMMANDS

from . import codes
from .naming import commented, shape
from .pairs import FLAT, SUSPENSION
from .report import DECIDE, LOST, THEIRS
from .taken import as_constant


class Added:
    """Something that is added: its row, the message of ours that it is in or None, and the line before which it comes,
    what it has within it, and the messages and enums that it holds."""

    def __init__(self, name, row=None, within=None):
        self.name, self.row, self.within = name, row, within
        self.home, self.before = None, 0
        self.parts, self.holds = [], ()
        self.is_left_out, self.why = False, ""

    def leave_out(self, why, section=LOST):
        """Leaves it out, with what is in it; nothing more is reported of that then."""
        self.is_left_out, self.why = True, why
        if self.row is not None:
            point = f"{self.row.name} is only there, and is left out: {why}" if section else ""
            self.row.tell(section, f"left out: {why}", point)
        for part in self.parts:
            part.leave_out(part.why or "with what it is in", "" if self.row else section)

    def give_up(self, why):
        if self.is_left_out:
            return False
        self.leave_out(why)
        return True

    def kept(self):
        return [part for part in self.parts if not part.is_left_out]

    def all(self):
        """It and all that is in it."""
        return [self, *(one for part in self.parts for one in part.all())]

    def owner(self):
        """The name of the message that it is in."""
        return self.home or self.within.owner()


class AddedField(Added):
    """A field, or a member of a oneof."""

    def __init__(self, field, row, within, names):
        super().__init__(field.name, row, within)
        self.field, self.names = field, names
        self.is_printed = self.is_compared = False
        if field.type_name and field.kind in ("message", "enum"):
            self.holds = (field.type_name,)

    def type_name(self):
        return self.names.type_here(self.field.type_name) or self.field.kind

    def give_up(self, why):
        """Leaves it out; one that has no text is read and written all the same."""
        if "no form yet that prints" in why and not self.is_left_out:
            told = self.within if isinstance(self.within, AddedOneof) else self
            if told.is_printed:
                told.is_printed = False
                self.row.tell(DECIDE, "not compared", f"{self.row.name} is only there, and not compared: {why}")
                return True
        return super().give_up(why)

    def lines(self, place):
        member = isinstance(self.within, AddedOneof)
        indent = "    " if member or self.within is None and self.field.oneof else "  "
        label = f"{self.field.label} " if self.field.label else ""
        options = ""
        if self.is_compared and not member:
            options = f" [(printed) = {place}]" if self.is_printed else " [(not_compared) = true]"
        elif member and self.within.is_compared and not self.within.is_printed:
            options = " [(not_compared) = true]"
        comment = commented(codes.without_code(self.field.comment), f"Of the runtime: {self.name}.", indent)
        return [*comment, f"{indent}{label}{self.type_name()} {self.name} = {self.field.number}{options};"]


class AddedOneof(Added):
    """A oneof, without a row of its own."""

    def __init__(self, oneof, within):
        super().__init__(oneof.name, None, within)
        self.oneof = oneof
        self.is_printed = self.is_compared = False

    def lines(self, place):
        """What it begins with."""
        comment = commented(codes.without_code(self.oneof.comment), f"Of the runtime: {self.name}.", "  ")
        printed = [f"    option (oneof_printed) = {place};"] if self.is_printed else []
        return [*comment, f"  oneof {self.name} {{", *printed]


class AddedMessage(Added):
    """A message, which has a code if it is that of a type."""

    def __init__(self, name, message, code, row):
        super().__init__(name, row)
        self.message, self.code = message, code
        self.schema = 0

    def is_command(self):
        return self.code is not None and self.code in COMMANDS

    def is_type(self):
        """Whether it is the message of a type, by its code or by how it is called."""
        return self.code is not None or self.name.endswith("Message") and not self.message.within

    def leave_out(self, why, section=LOST):
        """What holds it says that it is left out, but of a type nothing else does."""
        super().leave_out(why, section if self.is_type() else "")

    def lines(self, _):
        comment = commented(codes.without_code(self.message.comment), f"Of the runtime: {self.name}.")
        lines = ["", *comment, f"message {self.name} {{", f"  option (schema) = {self.schema};"]
        if self.code is not None:
            lines.append(f"  option (code) = 0x{self.code:04X};")
        if self.is_command():
            words = self.name.removesuffix("Message").removesuffix("Command")
            words = re.sub(r"(?<=[a-z0-9])(?=[A-Z])", " ", words).lower()
            lines.append(f'  option (command) = {{ text: "{words}" }};')
        return [*lines, ""]

    def owner(self):
        return self.name


class AddedEnum(Added):
    """An enum, whose values have names that nothing else has."""

    def __init__(self, enum, row, taken):
        super().__init__(enum.name, row)
        self.enum, self.values = enum, {}
        for value, number, _ in enum.values:
            if number >= 0 and number not in self.values:
                self.values[number] = value if value not in taken else f"{as_constant(enum.name)}_{value}"
                taken.add(self.values[number])
        # the first one is 0, which a file in proto2 need not have
        if 0 not in self.values:
            self.values[0] = f"{as_constant(enum.name)}_ZERO"
            taken.add(self.values[0])

    def lines(self, _):
        comment = commented(codes.without_code(self.enum.comment), f"Of the runtime: {self.name}.")
        values = sorted(self.values.items(), key=lambda one: one[0] != 0)
        return ["", *comment, f"enum {self.name} {{", *(f"  {value} = {number};" for number, value in values)]


class AddedValue(Added):
    """A value of an enum of ours."""

    def __init__(self, name, number, row):
        super().__init__(name, row)
        self.number = number

    def lines(self, _):
        return [f"  {self.name} = {self.number};"]


class Further:
    """All that is only there."""

    def __init__(self, pairs, report, end):
        self.pairs, self.report, self.end = pairs, report, end
        self.found = []

    def put(self, one, before, home=None):
        one.before, one.home = before, home
        self.found.append(one)

    def all(self):
        return [one for top in self.found for one in top.all()]

    # In messages of ours.

    def of_message(self, taken):
        """The fields of a message that only they have."""
        message, other, matched = taken.message, taken.other, taken.matched
        if other is None or message.name == FLAT and self.pairs.found.get(SUSPENSION) is other:
            return
        flat = {field.name for field in self.pairs.ours[FLAT].fields}
        is_flat = message.name == SUSPENSION and self.pairs.is_flat(other)
        groups = {}
        for field in self.pairs.unmatched(other, matched):
            if not (is_flat and field.name in flat):
                groups.setdefault(field.oneof, []).append(field)
        is_compared = self.pairs.is_command(message.name)
        for oneof, fields in groups.items():
            home = self.home_of(message, matched, oneof)
            if oneof and home is None:
                one = self.added_oneof(other, fields, message.name)
                one.is_printed = one.is_compared = is_compared
                self.put(one, message.end, message.name)
                continue
            for field in fields:
                one = AddedField(field, self.row(message.name, field), None, self.pairs)
                one.is_printed = one.is_compared = is_compared and home is None
                self.put(one, home.end if home else message.end, message.name)
                self.check_field(one)

    @staticmethod
    def home_of(message, matched, oneof):
        """The oneof here that has members of theirs, or that is called so."""
        held = (field.oneof for field in message.fields if field.oneof and matched[field.name] and matched[
            field.name
        ].oneof == oneof)
        name = next(held, oneof)
        return next((one for one in message.oneofs if oneof and one.name == name), None)

    def row(self, name, field):
        return self.report.say(f"{name}.{field.name}", "", f"{field.number} {shape(field)}", THEIRS)

    def added_oneof(self, other, fields, home, within=None):
        """A oneof that only they have, in a message of ours or in one that is added."""
        one = AddedOneof(next(one for one in other.oneofs if one.name == fields[0].oneof), within)
        one.home = home
        for field in fields:
            part = AddedField(field, self.row(home, field), one, self.pairs)
            part.row.more = f"in the oneof {one.name}"
            one.parts.append(part)
            self.check_field(part)
        return one

    def check_field(self, one):
        """Leaves out what the library has no form for, whatever else there is."""
        if one.field.kind == "group":
            one.leave_out("it is a group, which the library lacks")
        elif one.field.kind == "map":
            one.leave_out(f"it is a {one.field.type_name}, and the library lacks maps")
        elif one.owner() == FLAT:
            one.leave_out("there is hand-written code for its three lists only")
        elif one.owner() in self.pairs.ours and self.pairs.is_command(one.owner()):
            if one.field.number == self.pairs.number_of_name:
                one.leave_out("its number is the one that names commands there")

    # Messages and enums.

    def add_messages(self, base):
        """The messages that only they have: those of types, and those that a field holds."""
        matched = {id(other) for other in self.pairs.found.values()}
        for name, other in self.pairs.theirs.items():
            if id(other) not in matched:
                self.add_message(name, other, codes.code_of(other, base))

    def add_message(self, theirs, other, code):
        name = self.free_name(theirs, code)
        self.pairs.names[theirs] = name
        said = f", code 0x{code:04X}" if code is not None else ""
        one = AddedMessage(name, other, code, self.report.say(theirs, "", f"a message{said}", THEIRS))
        if name != theirs:
            one.row.more = f"called {name} here"
        self.put(one, self.end)
        groups = {}
        for field in other.fields:
            groups.setdefault(field.oneof or field.name, []).append(field)
        for fields in groups.values():
            if fields[0].oneof:
                part = self.added_oneof(other, fields, name, one)
                part.is_printed = part.is_compared = one.is_command()
                one.parts.append(part)
                continue
            part = AddedField(fields[0], self.row(name, fields[0]), one, self.pairs)
            is_name = fields[0].number == self.pairs.number_of_name
            part.is_printed = part.is_compared = one.is_command() and not is_name
            one.parts.append(part)
            self.check_field(part)

    def free_name(self, name, code):
        """The name that a message of theirs gets here: that of a type ends as its code says, and no other has it."""
        if code is not None and not name.endswith(codes.ending(code)):
            for end in ("Message", "Command", "Notification"):
                name = name.removesuffix(end)
            name += codes.ending(code)
        pairs = self.pairs
        taken = {*pairs.ours, *pairs.our_enums, *pairs.names.values(), *pairs.enum_names.values()}
        if name not in taken:
            return name
        end = codes.ending(code) if code is not None else ""
        start = name.removesuffix(end)
        return next(free for at in range(2, 1000) if (free := f"{start}{at}{end}") not in taken)

    def add_enums(self, enums):
        """The values and the enums that only they have."""
        taken = {value for enum in self.pairs.our_enums.values() for value, _, _ in enum.values}
        taken |= {value for enum in enums.found for value, _, _ in enum.further}
        for enum in enums.found:
            for value, number, row in enum.further:
                one = AddedValue(value, number, row)
                first = enum.enum.values[0][2]
                self.put(one, first if number == 0 else enum.enum.end, enum.enum.name)
        for enum in enums.further:
            listed = ", ".join(f"{number} {value}" for value, number, _ in enum.values)
            one = AddedEnum(enum, self.report.say(enum.name, "", f"an enum of {listed}", THEIRS), taken)
            one.name = self.free_name(enum.name, None)
            self.pairs.enum_names[enum.name] = one.name
            self.put(one, self.end)
