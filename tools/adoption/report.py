"""What is said of two files: a table of what is the same and what is not, and the points of it."""
import collections
import dataclasses
import textwrap

# What is said of a field or a message.
SAME, RENUMBERED, THEIRS, OURS, KIND = "the same", "renumbered", "only there", "only here", "of another kind"

# What a point is about, in this order, and how its heading says it.
LOST, OTHERWISE, DECIDE = "lost", "otherwise", "decide"
HEADINGS = {
    LOST: "{count} what is lost:",
    OTHERWISE: "{count} what is read otherwise than there:",
    DECIDE: "{count} what a person decides:",
}


@dataclasses.dataclass
class Row:
    """What is said of a message or of a field: its name, what it is here and there, what of it, and the point that is
    made of that, if any."""

    name: str
    here: str
    there: str
    said: str
    more: str = ""
    section: str = ""
    point: str = ""

    def tell(self, section, more, point):
        """Says what comes of it, in the table and as a point."""
        self.section, self.more, self.point = section, more, point


class Report:
    """The rows, the points that are of no row, and what is only here."""

    def __init__(self):
        self.rows = []
        self.notes = []
        # our messages that they do not have, and of the others the fields
        self.messages = []
        self.fields = collections.defaultdict(list)

    def say(self, *parts):
        self.rows.append(Row(*parts))
        return self.rows[-1]

    def note(self, section, text):
        self.notes.append((section, text))

    def points(self, section):
        """What is said in a section."""
        of_rows = [row.point for row in self.rows if row.section == section]
        return [*of_rows, *(text for where, text in self.notes if where == section)]

    def table(self, is_all):
        """The table, without what is the same if that is not asked for."""
        rows = [row for row in self.rows if is_all or row.said != SAME]
        heads = Row("NAME", "HERE", "THERE", "WHAT")
        parts = ("name", "here", "there")
        widths = [max(len(getattr(row, part)) for row in [heads, *rows]) for part in parts]
        return [
            "  ".join(
                [
                    *(getattr(row, part).ljust(width) for part, width in zip(parts, widths)),
                    f"{row.said}{f': {row.more}' if row.more else ''}",
                ]
            ).rstrip()
            for row in [heads, *rows]
        ]

    def counts(self):
        found = collections.Counter(row.said for row in self.rows)
        return ", ".join(f"{found[said]} {said}" for said in (SAME, RENUMBERED, THEIRS, OURS, KIND))

    def only_here(self, ours):
        """What nothing of theirs fills: fields, one line per message, then whole messages, those of types apart."""
        types = [name for name in self.messages if "code" in ours[name].options]
        others = [name for name in self.messages if name not in types]
        lines = [f"- {name}: {', '.join(fields)}" for name, fields in self.fields.items()]
        for heading, names in (("messages", others), ("types", types)):
            if names:
                text = f"- {heading} that they do not have: {', '.join(names)}"
                lines += textwrap.wrap(text, 118, subsequent_indent="  ", break_long_words=False)
        return ["", "only here, and nothing of theirs fills it:", *lines] if lines else []

    def text(self, is_all, ours):
        """The table, the counts, and the points, first what is lost."""
        lines = [*self.table(is_all), "", self.counts()]
        for section, heading in HEADINGS.items():
            points = self.points(section)
            if points:
                count = "1 point of" if len(points) == 1 else f"{len(points)} points of"
                lines += ["", heading.format(count=count), *(f"- {text}" for text in points)]
        return "\n".join([*lines, *self.only_here(ours)])
