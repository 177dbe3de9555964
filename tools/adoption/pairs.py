"""Which of their messages and fields are ours: by their names, whatever they are within."""
import collections

from generators import Refused, forms
from generators.model import COMMANDS, NOTIFICATIONS

from . import codes, readings
from .naming import plain, shape, similar

# The field that names a command, and the messages of a suspension; the earlier one may be within the later
# one.
NAME = "name"
SUSPENSION, FLAT = "SuspensionMessage", "SuspensionMessageV6"

# The message without fields here, and that of protobuf.
EMPTY = "Void", "Empty"

# The version of the streams of examples/, and the last one at which a suspension has three lists.
EXAMPLES, LAST_FLAT = 8, 6


class Renames:
    """What is called otherwise there: messages, and fields of our messages, by the names here. A message here may be
    written as any file may write it; a second name for one is not taken."""

    def __init__(self, words, ours):
        self.messages, self.fields, self.words, self.twice = {}, {}, {}, []
        named = {plain(name): name for name in ours}
        for word in words:
            theirs, _, ours = word.partition("=")
            message, _, field = theirs.partition(".")
            if field:
                home, _, name = ours.rpartition(".")
                home = named.get(plain(home or message), home or message)
                self.add(self.fields, (home, name), field, word)
            else:
                self.add(self.messages, named.get(plain(ours), ours), theirs, word)

    def add(self, names, key, theirs, word):
        """Takes note of a name there, if there is none yet."""
        if key in names:
            self.twice.append(f"--rename {word}: {word.partition('=')[2]} has another name there already")
        names.setdefault(key, theirs)
        self.words.setdefault(key, word)


class Pairs:
    """Our messages with theirs, by their names here."""

    def __init__(self, ours, theirs, words=()):
        self.ours = {message.name: message for message in ours.messages}
        self.our_enums = {enum.name: enum for enum in ours.enums}
        self.their_enums = {enum.name: enum for enum in theirs.enums}
        # the fields of a group are within the message that has it
        groups = {field.type_name for message in theirs.messages for field in message.fields if field.kind == "group"}
        self.theirs = {message.name: message for message in theirs.messages if message.name not in groups}
        self.renames = Renames(words, self.ours)
        self.found = self.paired()
        # the name here of a message there; of an enum, by the fields that hold both
        self.names = {other.name: name for name, other in reversed(self.found.items())}
        self.enum_names = {}
        self.check_renames()
        self.number_of_name = self.common_name()
        self.template = self.template_numbers()

    def paired(self):
        """Our messages with theirs."""
        by_plain = collections.defaultdict(list)
        for name in self.theirs:
            by_plain[plain(name)].append(name)
        taken = set(self.renames.messages.values())
        found = {}
        for name in self.ours:
            alike = [other for other in by_plain[plain(name)] if other not in taken]
            exact = name if name in alike else alike[0] if len(alike) == 1 else None
            other = self.renames.messages.get(name, exact)
            if other in self.theirs:
                found[name] = self.theirs[other]
        if EMPTY[0] not in found and EMPTY[1] in self.theirs and not self.theirs[EMPTY[1]].fields:
            found[EMPTY[0]] = self.theirs[EMPTY[1]]
        # a file that has only one suspension may have the three lists in it
        last = found.get(SUSPENSION)
        if FLAT not in found and last and "waiting_completions" in [field.name for field in last.fields]:
            found[FLAT] = last
        return found

    def check_renames(self):
        """Rejects names that are nowhere."""
        wrong = list(self.renames.twice)
        for ours, theirs in self.renames.messages.items():
            wrong += self.unknown(ours, theirs, self.theirs, "message")
            wrong += self.unknown(ours, ours, self.ours, "message", "here")
        for (message, name), theirs in self.renames.fields.items():
            key = message, name
            if message not in self.ours:
                wrong += self.unknown(key, message, self.ours, "message", "here")
            elif message not in self.found:
                wrong.append(f"--rename {self.renames.words[key]}: they have no {message}")
            else:
                names = [field.name for field in self.found[message].fields]
                wrong += self.unknown(key, theirs, names, f"field of {self.found[message].name}")
                names = [field.name for field in self.ours[message].fields]
                wrong += self.unknown(key, name, names, f"field of {message}", "here")
        if wrong:
            raise Refused(wrong)

    def unknown(self, key, name, known, what, where="there"):
        """What is said of a name that is not known, if it is not."""
        if name in known:
            return []
        return [f"--rename {self.renames.words[key]}: there is no {what} {name} {where}{similar(name, known)}"]

    def version(self):
        """The version of their streams: an earlier one, if their suspension has only the three lists."""
        other = self.found.get(SUSPENSION)
        return LAST_FLAT if other and self.is_flat(other) and not self.has_both_forms() else EXAMPLES

    def is_flat(self, other):
        """Whether a suspension of theirs has the three lists."""
        return other is self.found.get(FLAT)

    def has_both_forms(self):
        """Whether their suspension has the three lists and something else."""
        other = self.found.get(SUSPENSION)
        lists = {field.name for field in self.ours[FLAT].fields}
        return bool(other) and self.is_flat(other) and not {field.name for field in other.fields} <= lists

    # Kinds.

    def type_here(self, name):
        """The name here of a message or an enum there."""
        return self.names.get(name, self.enum_names.get(name, name))

    def is_same_shape(self, field, other):
        """Whether two fields are of one kind, where a message or an enum there may have another name here."""
        if field.kind == other.kind == "enum":
            return field.label == other.label
        if (field.label, field.kind) != (other.label, other.kind):
            return False
        return field.kind != "message" or self.names.get(other.type_name) == field.type_name

    def is_command(self, name):
        return self.ours[name].options.get("code", -1) in COMMANDS

    def is_notification(self, name):
        return self.ours[name].options.get("code", -1) in NOTIFICATIONS

    # Fields.

    def fields(self, message, other):
        """Our fields of a message, each with theirs or None."""
        if other is None:
            return {field.name: None for field in message.fields}
        by_name = {field.name: field for field in other.fields}
        by_plain = {plain(field.name): field for field in other.fields}
        renamed = {name: theirs for (home, name), theirs in self.renames.fields.items() if home == message.name}
        by_name.update((name, by_name.get(theirs)) for name, theirs in renamed.items())
        free = {name: field for name, field in by_plain.items() if field.name not in renamed.values()}
        matched = {field.name: by_name.get(field.name) or free.get(plain(field.name)) for field in message.fields}
        for oneof in message.oneofs:
            self.match_members(message, oneof.name, other, matched)
        return matched

    def match_members(self, message, oneof, other, matched):
        """Of a oneof the members that are called otherwise there, and are the only ones of their kind on both sides."""
        ours = [field for field in message.fields if field.oneof == oneof]
        theirs = {matched[field.name].oneof for field in ours if matched[field.name]} - {""}
        theirs |= {one.name for one in other.oneofs if plain(one.name) == plain(oneof)}
        free = [field for field in self.unmatched(other, matched) if field.oneof in theirs]
        for field, alike in self.single([field for field in ours if matched[field.name] is None], free):
            matched[field.name] = alike

    @staticmethod
    def unmatched(other, matched):
        """Their fields of a message that are none of ours."""
        taken = {id(field) for field in matched.values() if field}
        return [field for field in other.fields if id(field) not in taken]

    def single(self, ours, theirs):
        """Of some fields the pairs that are the only ones of their kind on both sides."""
        for field in ours:
            alike = [one for one in theirs if self.is_same_shape(field, one)]
            if len(alike) == 1 and sum(self.is_same_shape(one, alike[0]) for one in ours) == 1:
                yield field, alike[0]

    def suggestions(self, base):
        """Names that --rename may be for: of messages with one code, and of the only fields of their kind."""
        unpaired = {code: name for name, other in self.theirs.items() if name not in self.names and (
            code := codes.code_of(other, base)
        ) is not None}
        for name, message in self.ours.items():
            other = self.found.get(name)
            code = message.options.get("code")
            if other is None and code in unpaired and name != FLAT:
                yield f"{unpaired[code]}={name}", f"{name} is only here, and {unpaired[code]} there has its code"
            if other is None or name == FLAT or self.is_flat(other):
                continue
            matched = self.fields(message, other)
            ours = [field for field in message.fields if matched[field.name] is None and not field.oneof]
            theirs = [field for field in self.unmatched(other, matched) if not field.oneof]
            for field, alike in self.single(ours, theirs):
                where, there = f"{name}.{field.name}", f"{name}.{alike.name}"
                yield f"{there}={where}", f"{where} is only here, and {there}, the only {shape(alike)} left, only there"

    # Numbers that several messages share.

    def our_name(self):
        """The number of the field that names a command here."""
        named = (field for name, message in self.ours.items() if self.is_command(name) for field in message.fields)
        return next(field.number for field in named if field.name == NAME)

    def is_name(self, message, field):
        """Whether a field of ours names a command."""
        return self.is_command(message.name) and field.number == self.our_name()

    def common_name(self):
        """The number of the field that names a command there, which most of them have, or one that is free in all."""
        found, used = collections.Counter(), set()
        for name, other in self.found.items():
            if not self.is_command(name):
                continue
            used |= {field.number for field in other.fields}
            matched = self.fields(self.ours[name], other)
            for field in self.ours[name].fields:
                if self.is_name(self.ours[name], field) and self.is_read(field, matched[field.name]):
                    found[matched[field.name].number] += 1
        usual = self.our_name()
        free = next(number for number in (usual, *range(1, 19000)) if number not in used)
        return found.most_common(1)[0][0] if found else free

    def template_numbers(self):
        """The numbers there of what notifications have, by the numbers here: those of the template, or else of a
        notification."""
        names = [forms.TEMPLATE, *(name for name in self.ours if self.is_notification(name))]
        found, used = {}, set()
        for name in names:
            other = self.found.get(name)
            used |= {field.number for field in other.fields} if other else set()
            matched = self.fields(self.ours[name], other)
            for field in self.ours[name].fields:
                theirs = matched[field.name]
                is_new = theirs and field.number not in found and theirs.number not in found.values()
                if is_new and self.is_read(field, theirs):
                    found[field.number] = theirs.number
        # what none of theirs has keeps its number, or gets one that is free
        for field in self.ours[forms.TEMPLATE].fields:
            if field.number not in found:
                taken = used | set(found.values())
                found[field.number] = next(free for free in [field.number, *range(1, 19000)] if free not in taken)
        return found

    def is_read(self, field, other):
        """Whether a field of ours reads the bytes of theirs."""
        return other is not None and bool(self.is_same_shape(field, other) or self.reading(field, other))

    def reading(self, field, other):
        """How a field of ours reads the bytes of theirs, which is of another kind, or None if it does not."""
        return readings.reading(field, other, self.ours, self.theirs)
