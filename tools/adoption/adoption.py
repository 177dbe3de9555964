"""The two descriptions, and what comes of them."""
from generators import proto

from .further import AddedField, AddedMessage, AddedOneof, Further
from .pairs import FLAT, LAST_FLAT, SUSPENSION, Pairs
from .report import DECIDE, LOST, OTHERWISE, Report
from .taken import TakenCodes, TakenEnums, TakenMessage
from .written import Written


class Adoption:
    """What is taken of their description, once `match` has gone through both."""

    def __init__(self, ours, theirs, renames=()):
        self.pairs = Pairs(ours, theirs, renames)
        self.said = Report()
        self.lines = proto.PROTO.read_text(encoding="utf-8").split("\n")
        self.further = Further(self.pairs, self.said, len(self.lines))
        self.written = self.codes = None

    def match(self):
        """Goes through our messages, and then through what is only there."""
        messages = [TakenMessage(self.pairs, self.said, message) for message in self.pairs.ours.values()]
        for message in messages:
            message.decide()
            self.further.of_message(message)
        self.codes = TakenCodes(self.pairs, self.said, self.lines)
        enums = TakenEnums(self.pairs, self.said)
        self.further.add_enums(enums)
        self.further.add_messages(self.codes.base)
        taken = [field for message in messages for field in message.fields]
        taken += self.codes.found.values()
        taken += [value for enum in enums.found for value in enum.values()]
        self.written = Written(self.pairs, self.lines, taken, self.further)
        self.note()

    def note(self):
        """What is said of the files as a whole."""
        say = self.said.note
        if self.pairs.version() == LAST_FLAT:
            text = f"their {SUSPENSION} has the three lists alone, as it is before version {LAST_FLAT + 1}"
            say(OTHERWISE, f"{text}: streams with it are dumped with --protocol 5 or {LAST_FLAT}")
        if self.pairs.has_both_forms():
            text = f"their {SUSPENSION} has the three lists and more: the lists are read as {FLAT}, before version"
            say(LOST, f"{text} {LAST_FLAT + 1}; from there on they are skipped as unknown")
        if self.codes.uncoded:
            listed = ", ".join(self.codes.uncoded)
            say(DECIDE, f"no comment there says the code ('Type: 0x0400 + 2') of {listed}: ours stay")
        for words, why in self.pairs.suggestions(self.codes.base):
            say(DECIDE, f"{why}: --rename {words} takes one as the other")

    def checked(self):
        """The description that comes of it."""
        return self.written.checked()

    def version(self):
        """The version of their streams."""
        return self.pairs.version()

    def compared(self):
        """What is compared of commands of ours, and printed last in a difference."""
        for one in self.further.found:
            if isinstance(one, (AddedField, AddedOneof)) and one.is_printed and not one.is_left_out:
                name = f"{one.home}.{one.name}"
                yield f"{name} is compared, and printed last in a difference: say so, or (not_compared)"

    def added_messages(self):
        """The messages that are added."""
        return [one for one in self.further.found if isinstance(one, AddedMessage) and not one.is_left_out]

    def report(self, is_all):
        """The table, the counts, and the points."""
        notes = list(self.said.notes)
        self.said.notes += [(DECIDE, text) for text in self.compared()]
        text = self.said.text(is_all, self.pairs.ours)
        self.said.notes = notes
        return text
