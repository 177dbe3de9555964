"""What our messages take of theirs: numbers of fields, kinds, codes of types, and numbers of enums."""
import functools
import itertools
import re

from generators import ROOT, forms

from . import codes
from .naming import plain, shape
from .pairs import FLAT, SUSPENSION
from .report import DECIDE, KIND, LOST, OTHERWISE, OURS, RENUMBERED, SAME, THEIRS


# The numbers that no field can have.
RESERVED = range(19000, 20000)


@functools.cache
def words_by_hand():
    """The words of the hand-written files of the library and of the programs."""
    texts = (file.read_text(encoding="utf-8") for file in (ROOT / "crates").glob("*/src/**/*.rt"))
    return {word for text in texts if not text.startswith("// @generated") for word in re.findall(r"\w+", text)}


def first_free(taken, after=0):
    """The first number of a field that is free, or 1 where there is none after one."""
    free = (number for number in range(after + 1, 2 ** 29) if number not in taken and number not in RESERVED)
    return next(free, 1)


class TakenField:
    """A field of ours with theirs or None: its number, the kind that is declared in place of its own, if any, and the
    row that says so."""

    def __init__(self, home, field, theirs):
        self.home, self.field, self.theirs = home, field, theirs
        self.line, self.number, self.declared = field.line, field.number, ""
        self.row = None

    def decide(self):
        """Takes theirs, as far as that has a form here."""
        field, theirs, pairs = self.field, self.theirs, self.home.pairs
        if theirs is None:
            self.number = self.home.free(field)
            if self.home.other is not None:
                self.row = self.say("", OURS, f"at {self.number}")
                self.home.report.fields[self.home.name].append(field.name)
            return
        self.row = self.say(f"{theirs.number} {shape(theirs)}", KIND)
        if field.kind == theirs.kind == "enum":
            pairs.enum_names.setdefault(theirs.type_name, field.type_name)
        if not self.home.may_have(field, theirs.number):
            self.skip("other messages of its kind have its number there for another field")
        elif theirs.kind == "map" and self.is_entry():
            self.take("a map there, which has the same bytes; in JSON it is a list")
        elif pairs.is_same_shape(field, theirs):
            self.take_same()
        elif self.has_form():
            self.declare()
        else:
            self.stay()
        if theirs.default:
            point = f"{self.name()}: where it is absent, it is {theirs.default} there, which is not said here"
            self.home.report.note(OTHERWISE, point)

    def say(self, there, said, more=""):
        """The row of the field."""
        return self.home.report.say(self.name(), f"{self.field.number} {shape(self.field)}", there, said, more)

    def name(self):
        return f"{self.home.name}.{self.field.name}"

    def both(self):
        return f"{self.name()} is {shape(self.field)} here and {shape(self.theirs)} there"

    def take(self, more):
        self.number = self.theirs.number
        self.row.said = SAME if self.field.number == self.number else RENUMBERED
        self.row.more = more

    def take_same(self):
        field, theirs = self.field, self.theirs
        self.take("" if theirs.name == field.name else f"called {theirs.name} there")
        if bool(field.oneof) != bool(theirs.oneof):
            more = f"in the oneof {field.oneof} here" if field.oneof else f"in the oneof {theirs.oneof} there"
            point = f"{self.name()} is {more}, and in none on the other side: it stays, with their number"
            last = "; of several members of it only the last one is read" if field.oneof else ""
            self.row.tell(LOST if field.oneof else OTHERWISE, more, f"{point}{last}")

    def is_entry(self):
        """Whether a list of messages has the bytes of their map: each entry of one is a message with a key at 1 and a
        value at 2. A message that they do not have keeps its numbers."""
        entry = self.home.pairs.ours.get(self.field.type_name) if self.field.label == "repeated" else None
        if entry is None or entry.name in self.home.pairs.found:
            return False
        kinds = ", ".join(part.kind for part in entry.fields)
        return self.theirs.type_name == f"map<{kinds}>" and [part.number for part in entry.fields] == [1, 2]

    def has_form(self):
        """Whether their kind can be taken: no code is written for ours, and the library has theirs."""
        theirs, pairs = self.theirs, self.home.pairs
        if self.field.oneof or theirs.oneof or self.field.name in words_by_hand():
            return False
        if theirs.label == "repeated" and theirs.kind not in ("uint32", "string", "bytes", "message"):
            return False
        if theirs.kind == "enum":
            return pairs.type_here(theirs.type_name) in pairs.our_enums
        if theirs.kind == "message":
            # of a command it has to be printed, and not each message has a text
            return theirs.type_name in pairs.names and not pairs.is_command(self.home.name)
        return theirs.kind in forms.SCALARS

    def declare(self):
        """Takes their kind."""
        type_name = self.home.pairs.type_here(self.theirs.type_name) or self.theirs.kind
        self.number, self.declared = self.theirs.number, f"{self.theirs.label} {type_name}".strip()
        self.row.tell(DECIDE, "theirs is taken", f"{self.both()}: theirs is taken, which changes its record")

    def stay(self, why=""):
        """Ours stays, with their number where it reads the same bytes."""
        reading = self.home.pairs.reading(self.field, self.theirs)
        if reading is None:
            self.skip(why)
            return
        self.number = self.theirs.number
        point = f"{self.both()}: ours stays, with their number; {reading.said}"
        self.row.tell(reading.section, "ours stays, with their number", point)

    def skip(self, why=""):
        """Ours stays at a free number, so that theirs is unknown."""
        self.number = self.home.free(self.field)
        self.row.said = KIND
        more, told = f"ours stays, at {self.number}", f", since {why}" if why else ""
        if self.number in self.home.theirs:
            point = f"{self.both()}: {more}, as in other messages; with another field there it is malformed as a whole"
            self.row.tell(LOST, more, f"{point}{told}")
        else:
            point = f"{self.both()}: ours stays, at the free number {self.number}, and theirs is skipped as unknown"
            self.row.tell(LOST, f"{more}: theirs is skipped", f"{point}{told}")

    def give_up(self, why):
        """Takes less of theirs, since a description with it is rejected. Whether there was something to give up."""
        if self.theirs is None or self.number != self.theirs.number or self.home.bound(self.field) is not None:
            return False
        if self.declared:
            self.declared = ""
            self.stay(why)
        else:
            self.skip(why)
        return True

    def written(self, line):
        """The line that declares it."""
        line = re.sub(rf"\b{self.field.name} = \w+", f"{self.field.name} = {self.number}", line, count=1)
        if not self.declared:
            return line
        declared = rf"^(\s*)(?:optional |repeated )?\w+ {self.field.name} ="
        return re.sub(declared, rf"\g<1>{self.declared} {self.field.name} =", line)


class TakenMessage:
    """A message of ours with theirs or None, and its fields."""

    def __init__(self, pairs, report, message):
        self.pairs, self.report, self.name = pairs, report, message.name
        self.message, self.other = message, pairs.found.get(message.name)
        self.matched = pairs.fields(message, self.other)
        self.fields = [TakenField(self, field, self.matched[field.name]) for field in message.fields]
        # the numbers of theirs, which no field that only we have may get
        self.theirs = {field.number for field in self.other.fields} if self.other else set()

    def decide(self):
        row = None
        if self.other is None:
            row = self.report.say(self.name, f"a message, fields: {len(self.fields)}", "", OURS)
            self.report.messages.append(self.name)
        for field in self.fields:
            field.number = None
        for field in self.fields:
            field.decide()
        if self.name == FLAT and self.other is not None:
            self.keep_order()
        if row is not None:
            moved = [f"{one.field.name} at {one.number}" for one in self.fields if one.number != one.field.number]
            row.more = ", ".join(["it stays", *moved])

    def bound(self, field):
        """The number that a field has since other messages have it so: the name of a command, and what a notification
        shares with the template."""
        if self.pairs.is_name(self.message, field):
            return self.pairs.number_of_name
        if self.pairs.is_notification(self.name) or self.name == forms.TEMPLATE:
            return self.pairs.template.get(field.number)
        return None

    def may_have(self, field, number):
        """Whether a field can have this number, by what other messages have."""
        bound = self.bound(field)
        if bound is not None:
            return number == bound
        return not (self.pairs.is_command(self.name) and number == self.pairs.number_of_name)

    def free(self, field):
        """A number for a field that has none of theirs: that of its kind of message, or its own one if it is free."""
        bound = self.bound(field)
        if bound is not None:
            return bound
        taken = self.theirs | {one.number for one in self.fields if one.field is not field}
        taken |= {self.pairs.number_of_name} if self.pairs.is_command(self.name) else set()
        return field.number if field.number not in taken else first_free(taken)

    def keep_order(self):
        """The lists of an earlier suspension keep their order, for which there is hand-written code."""
        last = 0
        for one in self.fields:
            if one.theirs is None:
                one.number = first_free(self.theirs, last)
                if one.row is not None:
                    one.row.more = f"at {one.number}"
            last = one.number
        if all(first.number < second.number for first, second in itertools.pairwise(self.fields)):
            return
        last = 0
        for one in self.fields:
            if one.theirs is not None:
                one.skip("the three lists have their numbers in this order here")
            one.number = last = first_free(self.theirs, last)
            if one.row is not None:
                one.row.more = f"at {one.number}: theirs is skipped" if one.theirs else f"at {one.number}"
                one.row.point = re.sub(r"free number \d+", f"free number {one.number}", one.row.point)


class TakenCode:
    """The code of a type of ours, in a line of the description."""

    def __init__(self, message, line, number):
        self.message, self.line, self.number = message, line, number
        self.row = None

    def give_up(self, why):
        """Takes the code of here again."""
        ours = self.message.options["code"]
        if self.number == ours or self.row is None:
            return False
        self.row.more = "ours stays"
        self.row.tell(LOST, "ours stays", f"{self.row.name} has the {self.row.there} there: ours stays, since {why}")
        self.number = ours
        return True

    def written(self, line):
        return re.sub(r"= \w+;", f"= 0x{self.number:04X};", line)


class TakenCodes:
    """The codes of our types."""

    def __init__(self, pairs, report, lines):
        self.pairs, self.report = pairs, report
        self.base, why = codes.base_of(pairs)
        if why:
            added = "numbers that comments add to a code, as in 'Type: 0x0400 + 10'"
            report.note(DECIDE, f"{added}, are read as hexadecimal: {why}")
        self.found, self.uncoded = {}, []
        for name, message in pairs.ours.items():
            ours = message.options.get("code")
            if ours is not None:
                places = range(message.line - 1, message.end)
                line = next(at for at in places if "option (code)" in lines[at]) + 1
                self.found[name] = TakenCode(message, line, ours)
                if name != FLAT:
                    self.decide(self.found[name], pairs.found.get(name), ours)
        self.keep_apart()

    def decide(self, one, other, ours):
        """Takes the code that is said there, if it is one of the same kind."""
        if other is None:
            return
        theirs = codes.code_of(other, self.base, ours)
        said = dict.fromkeys(codes.codes_of(other, self.base))
        name = one.message.name
        if len(said) > 1:
            listed = " and ".join(f"0x{code:04X}" for code in said)
            self.report.note(DECIDE, f"the comment of {other.name} says {listed}: 0x{theirs:04X} is taken")
        if theirs is None:
            self.uncoded.append(name)
        elif codes.kind_of(theirs) != codes.kind_of(ours):
            point = f"{name} is {codes.kind_of(ours)} here, with the code 0x{ours:04X}, and 0x{theirs:04X} there is "
            self.report.note(LOST, f"{point}none of these: ours stays")
        elif theirs != ours:
            one.number = theirs
            one.row = self.report.say(name, f"code 0x{ours:04X}", f"code 0x{theirs:04X}", RENUMBERED)

    def keep_apart(self):
        """No two types have one code: of two that are said there the first one has it, and a type that only we have
        gets another one."""
        while True:
            taken = {}
            for name, one in self.found.items():
                if name != FLAT and taken.setdefault(one.number, one) is not one:
                    self.part(taken[one.number], one)
                    break
            else:
                break
        if FLAT in self.found:
            self.found[FLAT].number = self.found[SUSPENSION].number

    def part(self, first, second):
        """Gives one of two types with one code another one."""
        for one, other in ((second, first), (first, second)):
            if one.message.name not in self.pairs.found:
                ours, taken = one.number, {code.number for code in self.found.values()}
                one.number = codes.free_code(ours, taken)
                more = f"its code is that of {other.message.name} there"
                self.report.say(one.message.name, f"code 0x{ours:04X}", f"code 0x{one.number:04X}", OURS, more)
                return
        for one, other in ((second, first), (first, second)):
            if one.give_up(f"that is the code of {other.message.name}"):
                return


class TakenValue:
    """A value of an enum of ours, in a line of the description."""

    def __init__(self, name, line, number):
        self.name, self.line, self.number = name, line, number

    def written(self, line):
        return re.sub(r"\w+ = \w+", f"{self.name} = {self.number}", line, count=1)


def named_values(other):
    """The names of an enum's numbers: those of one number, which are aliases, together."""
    found = {}
    for value, number, _ in other.values:
        found.setdefault(number, []).append(value)
    return found


class TakenEnum:
    """An enum that both have: the numbers of our values, and the values that are only there."""

    def __init__(self, report, enum, other):
        self.report, self.enum, self.theirs = report, enum, named_values(other)
        self.ours = {value: number for value, number, _ in enum.values}
        names = {value for values in self.theirs.values() for value in values}
        # what is left over of ours, by its number
        self.left = {number: value for value, number in self.ours.items() if value not in names}
        # names with their numbers, and the further ones with their rows
        self.numbers, self.further = {}, []
        for number, values in self.theirs.items():
            self.take(number, values)
        self.keep_others()

    def take(self, number, values):
        """Takes a number of theirs, for the value of ours that has one of its names."""
        alike = next((value for value in values if value in self.ours), None)
        if alike is None:
            self.take_further(number, values[0])
            return
        if number < 0:
            where, ours = f"{self.enum.name}.{alike}", self.ours[alike]
            point = f"{where} is {number} there, and values with names are 0 or more: the number has no name here"
            self.report.say(where, f"{ours}", f"{number}", KIND).tell(OTHERWISE, "ours stays", point)
            return
        self.numbers[alike] = number
        said = SAME if self.ours[alike] == number else RENUMBERED
        self.report.say(f"{self.enum.name}.{alike}", f"{self.ours[alike]}", f"{number}", said)
        for other in values:
            if other not in self.ours:
                row = self.report.say(f"{self.enum.name}.{other}", f"{number}, as {alike}", f"{number}", SAME)
                row.more = f"another name of {alike}"

    def take_further(self, number, value):
        """A number with none of our names: that of a value which is called otherwise, or a further one."""
        where = f"{self.enum.name}.{value}"
        if number not in self.left:
            self.further.append((value, number, self.report.say(where, "", f"{number}", THEIRS)))
            return
        ours = self.left[number]
        self.numbers[ours] = number
        row = self.report.say(where, f"{number}, as {ours}", f"{number}", SAME)
        row.tell(DECIDE, "called otherwise there", f"{where} is called {ours} here: the name here stays")

    def keep_others(self):
        """A value that they do not have keeps its number if that is free; one of an enum is 0."""
        for value, number in self.ours.items():
            if value not in self.numbers:
                taken = {*self.numbers.values(), *self.theirs}
                self.numbers[value] = number if number not in taken else first_free(taken)
        if 0 not in {*self.numbers.values(), *self.theirs}:
            names = (f"{as_constant(self.enum.name)}_{end}" for end in ("ZERO", "UNSPECIFIED", "NONE", "NOTHING"))
            known = {*self.ours, *(value for value, *_ in self.further)}
            self.further.append((next(name for name in names if name not in known), 0, None))

    def values(self):
        """Our values with their lines, that of 0 first."""
        ordered = sorted(self.numbers, key=lambda value: (self.numbers[value] != 0, list(self.ours).index(value)))
        return [TakenValue(value, line, self.numbers[value]) for value, (*_, line) in zip(ordered, self.enum.values)]


def as_constant(name):
    """The name of an enum as its values begin."""
    return re.sub(r"(?<=[a-z0-9])(?=[A-Z])", "_", name).upper()


class TakenEnums:
    """The enums that both have, and those that are only there."""

    def __init__(self, pairs, report):
        self.found, self.further = [], []
        done = {}
        for name, other in pairs.their_enums.items():
            enum = pairs.our_enums.get(pairs.enum_names.get(name, name)) or next(
                (one for one in pairs.our_enums.values() if plain(one.name) == plain(name)), None
            )
            if enum is None:
                self.further.append(other)
            elif enum.name in done:
                both = f"{name} and {done[enum.name]} there are both {enum.name} here"
                report.note(OTHERWISE, f"{both}, with the numbers of {done[enum.name]}")
            else:
                done[enum.name] = name
                pairs.enum_names[name] = enum.name
                self.found.append(TakenEnum(report, enum, other))
