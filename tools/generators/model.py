"""The messages of the protocol, as generators take them."""
import re

# The codes of commands, and of notifications.
COMMANDS = range(0x0400, 0x8000)
NOTIFICATIONS = range(0x8000, 0xFC00)


class Options:
    """What a message, a field or a oneof may have as options, each None where it is absent."""

    OPTIONS = ()

    def __init__(self, line, options):
        # where it is in the description
        self.line = line
        for name in self.OPTIONS:
            setattr(self, name, options.get(name))


class Field(Options):
    """A field: its name, its kind (u32, u64, bool, enum, text, bytes, message, or other, which the library lacks), its
    type's name, its number, its presence (plain, optional, repeated or message), the comment above it, its name in JSON
    where that is not a common one, and its options."""

    OPTIONS = ("not_compared", "payload", "printed", "packed")

    def __init__(self, name, kind, type_name, number, presence, comment, line, options):
        super().__init__(line, options)
        self.name = name
        self.kind = kind
        self.type_name = type_name
        self.message = type_name if kind == "message" else None
        self.enum = type_name if kind == "enum" else None
        self.number = number
        self.presence = presence
        self.comment = comment
        self.json_name = None


class OneOf(Options):
    """A oneof: its name, its members, the comment above it, and its options."""

    OPTIONS = ("printed",)

    def __init__(self, name, comment, line, options):
        super().__init__(line, options)
        self.name = name
        self.members = []
        self.comment = comment


class CommandType:
    """A command type: its name and its text."""

    def __init__(self, name, text):
        self.name = name
        self.text = text


class Message(Options):
    """A message: its name, its rows (fields and oneofs), its comment, the message that it is in, and its options."""

    OPTIONS = ("schema", "code", "before_version", "differs_by_version", "command", "also_sent_for")

    def __init__(self, name, comment, line, options):
        super().__init__(line, options)
        self.name = name
        self.rows = []
        self.comment = comment
        self.within = ""
        for option in ("command", "also_sent_for"):
            value = getattr(self, option)
            if value is not None:
                setattr(
                    self,
                    option,
                    CommandType(value.get("name", name.removesuffix("CommandMessage")), value.get("text", "")),
                )

    def type_name(self):
        """The name of the type whose message it is."""
        return self.name.removesuffix("Message")

    def is_command(self):
        return self.code is not None and self.code in COMMANDS

    def is_notification(self):
        return self.code is not None and self.code in NOTIFICATIONS


def snake(name):
    """A name in upper camel case as a module is named."""
    return re.sub(r"(?<=[a-z0-9])(?=[A-Z])", "_", name).lower()


def camel(name):
    """A field's name as a variant is named."""
    return "".join(word.capitalize() for word in name.split("_"))


def json_name(name):
    """A field's name in lower camel case."""
    first, *others = name.split("_")
    return first + "".join(word[:1].upper() + word[1:] for word in others)


def numbers(row):
    """The numbers of a field, or of a oneof's members."""
    return [member.number for member in members_of(row)]


def fields_of(message):
    """The fields of a message in the order of its rows, the members of a oneof next to each other."""
    return [field for row in message.rows for field in members_of(row)]


def members_of(row):
    """The members of a oneof, or the field."""
    return row.members if isinstance(row, OneOf) else [row]


def schema_name(name):
    """The name of a message's place in the table of schemas."""
    return snake(name).replace("_message", "").replace("_completion_notification", "_completion")
