"""The description with their numbers and what only they have, as far as the library has a form for it."""
import collections
import re

from generators import Refused, forms, proto

from .further import AddedEnum, AddedField, AddedMessage, AddedOneof
from .report import LOST

# What protoc says of a number that two fields have; either may be the one to give up.
TWICE = re.compile(r'has already been used in "[\w.]*?(\w+)" by field "(\w+)"')


class Written:
    """The lines of the description, with what has taken their numbers and what is added to it."""

    def __init__(self, pairs, lines, taken, further):
        self.pairs, self.lines, self.further = pairs, lines, further
        # what writes a line of ours otherwise
        self.taken = {one.line: one for one in taken}

    def text(self):
        """The text, and what is responsible for each of its lines."""
        before = collections.defaultdict(list)
        for one in self.further.found:
            if not one.is_left_out:
                before[one.before].append(one)
        self.count_schemas()
        places = self.places()
        out, owners = [], {}

        def put(one):
            lines = one.lines(places.get(id(one), 0))
            for line in lines:
                out.append(line)
                owners[len(out)] = one
            for part in one.kept():
                put(part)
            if isinstance(one, (AddedMessage, AddedOneof, AddedEnum)):
                out.append("  }" if isinstance(one, AddedOneof) else "}")
                owners[len(out)] = one

        last = len(self.lines)
        for at, line in enumerate(self.lines, 1):
            for one in before[at]:
                put(one)
            if at == last and line == "":
                break
            out.append(self.taken[at].written(line) if at in self.taken else line)
            owners[len(out)] = self.taken.get(at)
        return "\n".join(out) + "\n", owners

    def count_schemas(self):
        """Gives the messages that are added the schemas after ours."""
        schema = len(self.pairs.ours)
        for one in self.further.found:
            if isinstance(one, AddedMessage) and not one.is_left_out:
                one.schema = schema
                schema += 1

    def places(self):
        """The places of what is printed in a difference, after ours."""
        places, last = {}, {}
        for one in self.further.all():
            if one.is_left_out or not getattr(one, "is_printed", False):
                continue
            owner = one.owner()
            if owner not in last:
                last[owner] = self.last_place(owner)
            last[owner] += 1
            places[id(one)] = last[owner]
        return places

    def last_place(self, owner):
        message = self.pairs.ours.get(owner)
        rows = (*message.fields, *message.oneofs) if message else ()
        return max((row.options.get("printed", row.options.get("oneof_printed", 0)) for row in rows), default=0)

    # What has no form.

    def checked(self):
        """The text that the library has forms for: what it has none for is left out, with the reason."""
        for _ in range(4 * (len(self.further.all()) + len(self.taken)) + 1):
            self.leave_out_codes()
            self.leave_out_unused()
            self.leave_out_cycles()
            self.leave_out_unused()
            text, owners = self.text()
            try:
                proto.of_text(text)
                return text
            except Refused as refused:
                if not any([self.give_up(problem, owners) for problem in refused.problems]):
                    raise
        raise Refused(["the description is not found"])

    def give_up(self, problem, owners):
        """Whether there is something to give up because of a problem."""
        found = re.match(r"[^:]*:(\d+):(?:\d+:)? ?(.*)", problem)
        if not found:
            return False
        owner, why = owners.get(int(found[1])), found[2]
        if hasattr(owner, "give_up") and owner.give_up(why):
            return True
        twice = TWICE.search(why)
        return bool(twice) and any(
            one.owner() == twice[1] and one.name == twice[2] and one.give_up(why)
            for one in self.further.all() if isinstance(one, AddedField)
        )

    def leave_out_codes(self):
        """Leaves out the types whose code another one has."""
        taken = {one.number: one.message.name for one in self.taken.values() if hasattr(one, "message")}
        for one in self.further.found:
            if isinstance(one, AddedMessage) and one.code is not None and not one.is_left_out:
                other = taken.setdefault(one.code, one.name)
                if other != one.name:
                    one.leave_out(f"its code is that of {other}")

    def leave_out_unused(self):
        """Leaves out what holds what is left out, what has nothing left in it, and what nothing holds."""
        while True:
            kept = [one for one in self.further.all() if not one.is_left_out]
            known = {*self.pairs.ours, *self.pairs.our_enums}
            known |= {one.name for one in kept if isinstance(one, (AddedMessage, AddedEnum))}
            reasons = [(one, self.why_not(one, known, self.held(kept))) for one in kept]
            for one, (why, section) in ((one, reason) for one, reason in reasons if reason):
                one.leave_out(why, section)
            if not any(reason for _, reason in reasons):
                return

    def held(self, kept):
        return {self.pairs.type_here(name) for one in kept for name in one.holds}

    def why_not(self, one, known, held):
        """Why something is left out, and in which section that is said, or None."""
        missing = next((name for name in map(self.pairs.type_here, one.holds) if name not in known), None)
        if missing:
            return f"{missing}, which it holds, is left out{self.reason(missing)}", LOST
        if isinstance(one, (AddedMessage, AddedOneof)) and one.parts and not one.kept():
            return one.parts[0].why, LOST
        if isinstance(one, AddedEnum) and one.name not in held:
            return "nothing here holds it", ""
        if isinstance(one, AddedMessage) and one.code is None and one.name not in held:
            return "no comment there says a code of it, and nothing here holds it", LOST
        return None

    def reason(self, name):
        """Why a message or an enum is left out, if that is known."""
        found = (one.why for one in self.further.found if one.is_left_out and one.name == name)
        return "".join(f": {why}" for why in found)

    def leave_out_cycles(self):
        """Leaves out the fields by which a message would hold itself."""
        holds = collections.defaultdict(set)
        for name, message in self.pairs.ours.items():
            holds[name] |= {field.type_name for field in message.fields if field.kind == "message"} - {name}
        changed = [one for one in self.taken.values() if getattr(one, "declared", "")]
        edges = [(one.home.name, one.declared.rpartition(" ")[2], one) for one in changed]
        for one in self.further.all():
            if isinstance(one, AddedField) and not one.is_left_out and one.field.kind == "message":
                edges.append((one.owner(), one.type_name(), one))
        for owner, held, one in edges:
            if self.reaches(holds, held, owner):
                one.give_up(self.cycle(owner, held))
            else:
                holds[owner].add(held)

    @staticmethod
    def cycle(owner, held):
        through = "" if held == owner else f" through {held}"
        written = " and ".join(forms.HAND_WRITTEN)
        return f"its message would hold itself{through}, for which there is hand-written code of {written} only"

    @staticmethod
    def reaches(holds, start, end):
        """Whether a message holds another one, or is that."""
        seen, waiting = set(), [start]
        while waiting:
            name = waiting.pop()
            if name == end:
                return True
            if name not in seen:
                seen.add(name)
                waiting += holds[name]
        return False
