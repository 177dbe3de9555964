"""The payloads and frames that tests quote as bytes, with the numbers of another description.

A literal that is nothing but frames of types is renumbered as a stream. Any other is a payload of the message that the
code before it says: by the message's name, by the number of its schema, or by the code of its type; where a file says
it otherwise there is a line for it here. A literal whose first record is none of that message stays as it is. Records
that were in the order of a canonical payload are so again, and others are out of order as they were. What a test has
besides in numbers, as lengths, offsets and the texts of its results, stays: the test fails, and names it.
"""
import re

from . import descriptors, renumbered
from .payloads import varint

NAME = (
    r"(?<!\")\b(?P<name>[A-Z]\w+Message(?:V6)?|Value|Failure|Header|Future|StateEntry|StateKeys"
    r"|NotificationTemplate)\b(?!\()"
)
SCHEMA = r"(?:\(\s*(?:(?:true|false),\s*)?|alloc, )(?P<schema>\d{1,2}),\s"
CODE = r"\b0x(?P<code>[0-9A-F]{4})(?:u16)?,"
NONE = r"(?!)"


def after(**words):
    """The messages that are meant after these patterns."""
    return "".join(f"(?P<{name}>{pattern})|" for name, pattern in words.items())


# By folder or file: how the code says the message, the last match before a literal; a message by its name where the
# file speaks of only one.
CONTEXTS = {
    "tests/comparisons/failing_writer.rt.in": "CallCommandMessage",
    "tests/ffi/commands.rt.in": CODE,
    "tests/ffi/frames.rt.in": after(ProposeRunCompletionMessage="PROPOSAL", SuspensionMessage="SUSPENSION") + NONE,
    "tests/ffi/notifications.rt.in": after(
        NotificationTemplate=r"\(\s*&\[|= \[",
        Value=r"\], 1,\s*&|\.\.\],\s*1,\s*&",
        Failure=r", 2,\s*&",
        StateKeys=r",\s*4,\s*&",
    )
    + NONE,
    # payloads at numbers of its own
    "tests/ffi/numberings.rt.in": NONE,
    "tests/ffi/payloads.rt.in": after(
        SuspensionMessageV6="let numbers", GetPromiseCompletionNotificationMessage="let twice"
    ) + SCHEMA,
    "tests/fields": SCHEMA,
    "tests/json": SCHEMA,
    "tests/messages/sharing.rt.in": after(StateKeys="fn key_shares", StateEntry="fn parts_are_shared") + NAME,
    "tests/out_of_memory/frames.rt.in": after(
        SuspensionMessage="SUSPENSION", ProposeRunCompletionMessage="PROPOSAL", InputCommandMessage="INPUT"
    ) + NONE,
    "tests/out_of_memory/records.rt.in": after(
        StartMessage=r"\b(?:LONGER_)?START\b",
        SuspensionMessageV6=r"LISTS\b",
        ErrorMessage=r"\bERROR\b",
        CallCommandMessage=r"\bCALL\b",
        NotificationTemplate=r"FAILURE\b",
        ProposeRunCompletionAckMessage="fn repeated_number",
    ) + NONE,
    "tests/out_of_memory/values.rt.in": after(NotificationTemplate=r"for \(payload, ") + NAME,
    "tests/public_api/values.rt.in": after(NotificationTemplate=r"for \(payload, ") + NAME,
    "tests/streams/frames.rt.in": after(
        StartMessage="START_PAYLOAD",
        InputCommandMessage="INPUT_PAYLOAD",
        GetLazyStateCompletionNotificationMessage="STATE_PAYLOAD",
    ) + NONE,
    "tests/streams/notifications.rt.in": "NotificationTemplate",
    # records of no schema
    "tests/wire/records.rt.in": NONE,
    "tests/wire": SCHEMA,
}

# A literal: the bytes of a text, or an array of numbers, with its length in its type.
TEXT = re.compile(r'(?<!\w)b"((?:[^"\\]|\\.)*)"', re.S)
ARRAY = re.compile(
    r"(?P<type>\[u8; )?(?P<length>(?(type)\d+))(?P<between>(?(type)\] =\s*&?))"
    r"\[(?P<held>(?:\s*(?:0x[0-9A-Fa-f]{2}|\d{1,3})\s*,)*\s*(?:0x[0-9A-Fa-f]{2}|\d{1,3}),?\s*)\]"
)
DIGITS = re.compile(r'"((?:[0-9a-f]{2}){8,})"')
ESCAPES = {"n": 10, "r": 13, "t": 9, "0": 0, "\\": 92, '"': 34}


def text_bytes(text):
    """The bytes of a literal's text, or None where it has more than bytes."""
    out = bytearray()
    for hexadecimal, escape, other in re.findall(r"\\x([0-9a-fA-F]{2})|\\([nrt0\\\"])|(.)", text, re.S):
        if not hexadecimal and not escape and not 32 <= ord(other) < 127:
            return None
        out.append(int(hexadecimal, 16) if hexadecimal else ESCAPES[escape] if escape else ord(other))
    return bytes(out)


class Quoted:
    """What a renumbering makes of the literals of tests."""

    def __init__(self, renumbering):
        self.renumbering = renumbering
        self.old = renumbering.old
        self.schemas = {message.schema: name for name, message in self.old.messages.items()}
        self.count = 0

    def begins(self, schema, data, is_schema):
        """Whether bytes begin with a field of a message, which is whole; where the code says a schema it may be of no
        field."""
        try:
            key, start = descriptors.varint(data, 0)
            field = self.old.fields[schema].get(key >> 3)
            if data[:start] != varint(key) or not key >> 3:
                return False
            if field is None:
                # another number if a field has it now
                return is_schema and key & 7 in (0, 2) and renumbered.value_end(data, start, key & 7) <= len(data)
            is_number = field.kind in ("u32", "u64", "bool", "enum")
            forms = (0, 2) if is_number and field.presence == "repeated" else (0,) if is_number else (2,)
            if key & 7 not in forms:
                return False
            if key & 7 == 0:
                return descriptors.varint(data, start)[1] <= len(data)
            length, begin = descriptors.varint(data, start)
            return begin + length <= len(data)
        except IndexError:
            return False

    def changed(self, schema, data, is_schema):
        """Bytes with the other numbers, or as they are."""
        if self.old.is_stream(data):
            return b"".join(self.renumbering.stream(renumbered.SKIPPED_FROM, [data], None))
        if schema in self.old.fields and self.begins(schema, data, is_schema):
            return self.renumbering.payload(schema, data, None)
        return data

    def context(self, path):
        """How the code of a file says the message."""
        parts = [path, path.rpartition("/")[0]]
        return next((CONTEXTS[part] for part in parts if part in CONTEXTS), NAME)

    def schema(self, match):
        """The message that a match says."""
        found = match.groupdict()
        if found.get("name"):
            return found["name"]
        if found.get("schema"):
            return self.schemas.get(int(found["schema"]))
        if found.get("code"):
            name = self.old.codes.get(int(found["code"], 16))
            return name and f"{name}Message"
        return next((name for name, held in found.items() if held), None)

    def text(self, path, text):
        """The text of a file of tests."""
        context = self.context(path)
        fixed = context if re.fullmatch(r"\w+", context) else None
        said = [] if fixed else [(match.start(), self.schema(match)) for match in re.finditer(context, text)]

        def schema_at(place):
            return fixed or next((name for start, name in reversed(said) if start < place), None)

        def of_text(match):
            data = text_bytes(match[1])
            new = data and self.changed(schema_at(match.start()), data, context == SCHEMA)
            if not data or new == data:
                return match[0]
            self.count += 1
            return 'b"{}"'.format("".join(f"\\x{byte:02x}" for byte in new))

        def of_digits(match):
            data = bytes.fromhex(match[1])
            new = self.changed(None, data, False)
            self.count += new != data
            return f'"{new.hex()}"'

        def of_array(match):
            data = [int(number, 0) for number in match["held"].replace(" ", "").replace("\n", "").split(",") if number]
            if max(data) > 255 or len(data) < 2 or (match["length"] or str(len(data))) != str(len(data)):
                return match[0]
            new = self.changed(schema_at(match.start()), bytes(data), context == SCHEMA)
            if new == bytes(data):
                return match[0]
            self.count += 1
            head = f"{match['type']}{len(new)}{match['between']}" if match["type"] else ""
            return f"{head}[{', '.join(f'0x{byte:02X}' for byte in new)}]"

        # the places of what the code says are those before any literal is changed
        pieces, at = [], 0
        forms = {TEXT: of_text, DIGITS: of_digits, ARRAY: of_array}
        found = [match for form in forms for match in form.finditer(text)]
        for match in sorted(found, key=lambda match: match.start()):
            if match.start() >= at:
                pieces += [text[at:match.start()], forms[match.re](match)]
                at = match.end()
        return "".join([*pieces, text[at:]])
