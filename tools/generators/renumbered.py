"""Hand-written test vectors with the numbers of another description: what payloads hold stays, field by field.

A payload is gone through record by record, as far as it is well-formed; the rest of it, and what is of no field, stays
as it is, so that a malformed byte stays where it is. A number that no field has gets another one if a field has it now.
What a line has as a result is canonical, and is put in order. How a record prints and what a stream lists is made anew,
where it is what the description of before says; a line that is wrong on purpose stays wrong. A line that holds what a
field of another kind reads otherwise is left out.
"""
import json
import re

from . import descriptors, proto
from .model import OneOf, camel, fields_of, json_name, members_of, numbers
from .payloads import absent, struct, varint

# The fields of a suspension before version 7 are those of this message.
SUSPENSION, FLAT = "Suspension", "SuspensionMessageV6"

# From this version on an unknown code is skipped with its payload.
SKIPPED_FROM = 9

# The type whose header requests an acknowledgement, and the flag.
WITH_FLAG, FLAG = "ProposeRunCompletion", 0x80

# Below which numbers the kinds of numbers are the same.
BELOW = {"bool": 2, "enum": 1 << 31, "u32": 1 << 32, "u64": 1 << 64}

# A code with one of these bits is that of a custom entry if no type has it.
CUSTOM = 0xFC00


class Side:
    """A description: its messages and fields, where their records come in a canonical payload, and the types."""

    def __init__(self, described):
        self.messages = {message.name: message for message in proto.checked(described)}
        self.fields = {
            name: {field.number: field for field in fields_of(message)} for name, message in self.messages.items()
        }
        self.places = {
            name: {
                member.number: min(numbers(row)) for row in message.rows for member in members_of(row)
            } for name, message in self.messages.items()
        }
        self.codes = {
            message.code: message.type_name()
            for message in self.messages.values()
            if message.code is not None and message.before_version is None
        }

    def printed(self, schema, data):
        """What a canonical payload means, as Rust's derived Debug prints it."""
        found = descriptors.Record(data).fields
        rows = []
        for row in self.messages[schema].rows:
            present = [member for member in members_of(row) if member.number in found]
            if not present:
                text = absent(row)
            else:
                field = present[0]
                values = [self.printed_value(field, value) for value in values_of(field, found[field.number])]
                text = f"[{', '.join(values)}]" if field.presence == "repeated" else values[-1]
                if isinstance(row, OneOf):
                    text = f"Some({camel(field.name)}({text}))"
                elif field.presence in ("optional", "message"):
                    text = f"Some({text})"
            rows.append(f"{row.name}: {text}")
        return struct(schema, rows)

    def printed_value(self, field, value):
        if field.kind == "message":
            return self.printed(field.message, value)
        if field.kind == "bool":
            return "true" if value else "false"
        if field.kind == "enum":
            return str((value + (1 << 31)) % (1 << 32) - (1 << 31))
        if field.kind == "text":
            return '"{}"'.format(re.sub(r'([\\"])', r"\\\1", value.decode()))
        if field.kind == "bytes":
            return 'b"{}"'.format(
                "".join(
                    chr(byte) if 32 <= byte < 127 and chr(byte) not in '\\"' else f"\\x{byte:02x}" for byte in value
                )
            )
        return str(value)

    def in_rows(self, schema, shown):
        """The members of a message as JSON has them, in the order of its rows."""
        found = {}
        for field in fields_of(self.messages[schema]):
            name = json_name(field.name)
            if name in shown:
                held = shown[name]
                if field.message:
                    held = (
                        [self.in_rows(field.message, one) for one in held]
                        if isinstance(held, list)
                        else self.in_rows(field.message, held)
                    )
                found[name] = held
        return found

    def items(self, version, data):
        """The items of a stream: of each the code, where it begins and ends, and whether its header is an item by
        itself."""
        at = 0
        while len(data) - at >= 8:
            code = int.from_bytes(data[at:at + 2], "big")
            is_alone = not self.is_type(code) and version < SKIPPED_FROM
            end = at + 8 + (0 if is_alone else int.from_bytes(data[at + 4:at + 8], "big"))
            if end > len(data):
                break
            yield code, at, end, is_alone
            at = end

    def is_stream(self, data):
        """Whether bytes are whole frames of types and nothing else."""
        items = list(self.items(SKIPPED_FROM, data))
        return bool(items) and items[-1][2] == len(data) and all(
            code in self.codes and data[at + 2:at + 4] in (b"\0\0", b"\x80\0") for code, at, _, _ in items
        )

    def is_type(self, code):
        return code in self.codes or bool(code & CUSTOM)

    def listing(self, version, data):
        """The listing of a stream, as conformance/README.md has it."""
        listed, rest = [], len(data)
        for code, at, end, is_alone in self.items(version, data):
            length, rest = end - at - 8, len(data) - end
            name = self.codes.get(code)
            if is_alone:
                listed.append(f"unknown 0x{code:x}")
            elif not self.is_type(code):
                listed.append(f"skipped 0x{code:x} {length}")
            else:
                ack = " ack" if name == WITH_FLAG and data[at + 2] & FLAG else ""
                listed.append(f"{name or f'CustomEntry({code})'} {length}{ack}")
        return ", ".join([*listed, f"rest {rest}"])


def values_of(field, found):
    """The values of a field; lists of numbers are packed."""
    if field.presence == "repeated" and field.kind == "u32":
        return [number for data in found for number in varints(data)]
    return found


def varints(data):
    at = 0
    while at < len(data):
        number, at = descriptors.varint(data, at)
        yield number


def padded(number, like):
    """A varint that is as much longer than it needs to be as another one, within the ten bytes that it may have."""
    least = varint(number)
    more = len(like) - len(varint(descriptors.varint(like, 0)[0]))
    if len(like) <= 10:
        more = min(more, 10 - len(least))
    if more <= 0:
        return least
    return least[:-1] + bytes([least[-1] | 128]) + bytes([128] * (more - 1)) + b"\0"


def skipped(data, at, number):
    """Of a group of a number that begins before a place, where the key of its end begins and where that ends."""
    groups = [number]
    while groups:
        start = at
        key, at = descriptors.varint(data, at)
        if key & 7 == 3:
            groups.append(key >> 3)
        elif key & 7 == 4:
            if key >> 3 != groups.pop():
                raise IndexError
        else:
            at = value_end(data, at, key & 7)
    return start, at


def value_end(data, at, form):
    """Where the value of a record that is not a group ends."""
    if form == 0:
        return descriptors.varint(data, at)[1]
    if form == 2:
        length, at = descriptors.varint(data, at)
        return at + length
    if form in (1, 5):
        return at + {1: 8, 5: 4}[form]
    raise IndexError


class Renumbering:
    """From one description to another one, of the messages and fields that both have."""

    def __init__(self, old, new):
        self.described = new
        self.old, self.new = Side(old), Side(new)
        self.numbers = {}
        for name, fields in self.old.fields.items():
            others = {field.name: number for number, field in self.new.fields.get(name, {}).items()}
            self.numbers[name] = {
                number: others[field.name] for number, field in fields.items() if field.name in others
            }
        # whether a field of another kind reads otherwise what it was given last
        self.is_other = False
        names = {name: code for code, name in self.new.codes.items()}
        self.codes = {code: names[name] for code, name in self.old.codes.items() if name in names}

    def inverse(self, old):
        """The way back from what this one has made to the description of before."""
        back = Renumbering(self.described, old)
        for name, known in self.numbers.items():
            back.numbers[name].update({number: before for before, number in known.items()})
        back.codes.update({code: before for before, code in self.codes.items()})
        return back

    def code(self, code):
        """The other code of a type, or of none: then one that no type has, of a custom entry if it is that of one."""
        if code not in self.codes and code in self.new.codes:
            taken = {*self.old.codes, *self.new.codes, *self.codes.values()}
            alike = range(1 << 10, 1 << 16) if code & CUSTOM else range(1, 1 << 10)
            self.codes[code] = next(free for free in [*range(code, alike.stop), *alike] if free not in taken)
        return self.codes.get(code, code)

    def number(self, schema, number):
        """The other number of a field, or of none: then one that no field has, with a key of as many bytes if there is
        one."""
        known = self.numbers[schema]
        if number not in known and number in self.new.fields[schema]:
            taken = {*known, *known.values(), *self.new.fields[schema]}
            least = 1 if number < 16 else 16
            known[number] = next(free for free in range(least, 19000) if free not in taken)
        return known.get(number, number)

    def payload(self, schema, data, is_canonical):
        """A payload with the other numbers, in the order of a canonical one if it is one; if that is not known (None)
        as much in that order as it was."""
        records, rest, at = [], b"", 0
        while at < len(data):
            before = at
            number, record, at = self.record(schema, data, at, is_canonical)
            if number is None:
                rest = record
            else:
                old = descriptors.varint(data, before)[0] >> 3
                records.append(
                    (self.old.places[schema].get(old, old), self.new.places[schema].get(number, number), record)
                )
        if is_canonical is not False:
            ranks = sorted(range(len(records)), key=lambda place: records[place][0])
            records.sort(key=lambda record: record[1])
            if is_canonical is None:
                records = [record for _, record in sorted(zip(ranks, records), key=lambda pair: pair[0])]
        return b"".join(record for _, _, record in records) + rest

    def record(self, schema, data, at, is_canonical):
        """The record that begins at a place, with its number and where it ends; all that is left if it is none."""
        try:
            key, start = descriptors.varint(data, at)
            number, form = key >> 3, key & 7
            if not 0 < number < 1 << 29 or form in (4, 6, 7):
                return None, data[at:], len(data)
            new = self.number(schema, number)
            head = padded(8 * new + form, data[at:start])
        except IndexError:
            return None, data[at:], len(data)
        self.is_other |= self.is_read_otherwise(schema, number, data, start)
        try:
            if form == 3:
                content, end = skipped(data, start, number)
                last = padded(8 * new + 4, data[content:end])
                return new, head + data[start:content] + last, end
            if form != 2:
                end = value_end(data, start, form)
                return new, head + data[start:end], end
            length, begin = descriptors.varint(data, start)
            end = begin + length
            field = self.old.fields[schema].get(number)
            if field is None or field.message is None or end > len(data):
                return new, head + data[start:end], end
            content = self.payload(field.message, data[begin:end], is_canonical)
            return new, head + padded(len(content), data[start:begin]) + content, end
        except IndexError:
            return new, head + data[start:], len(data)

    def is_read_otherwise(self, schema, number, data, at):
        """Whether the value at a place is another one for a field whose kind is another one now."""
        before = self.old.fields[schema].get(number)
        now = self.new.fields.get(schema, {}).get(self.number(schema, number))
        if before is None or now is None or before.kind == now.kind:
            return False
        try:
            value, begin = descriptors.varint(data, at)
            if {before.kind, now.kind} == {"text", "bytes"}:
                data[begin:begin + value].decode()
                return False
            return value >= min(BELOW.get(field.kind, 0) for field in (before, now))
        except (IndexError, UnicodeDecodeError):
            return True

    def word(self, schema, word, is_canonical=False):
        """A payload as a line has it; what is none stays."""
        if schema not in self.numbers or not re.fullmatch(r"([0-9a-f]{2})+", word):
            return word
        return self.payload(schema, bytes.fromhex(word), is_canonical).hex()

    def frame(self, schema, word):
        """A frame as a line has it: the length in its header is that of the payload."""
        if schema not in self.numbers or not re.fullmatch(r"([0-9a-f]{2}){8,}", word):
            return word
        code = int(word[:4], 16)
        content = self.payload(schema, bytes.fromhex(word[16:]), True)
        return f"{self.code(code):04x}{word[4:8]}{len(content):08x}{content.hex()}"

    def stream(self, version, chunks, is_canonical=False):
        """A stream whose items are renumbered, in chunks that end where they did, or within the same payload."""
        data = b"".join(chunks)
        # the parts of which the lengths are known here and there
        parts, end = [], 0
        for code, at, end, is_alone in self.old.items(version, data):
            head, content = self.code(code).to_bytes(2, "big") + data[at + 2:at + 8], data[at + 8:end]
            if not is_alone and code in self.old.codes:
                content = self.payload(self.schema_of(self.old.codes[code], content), content, is_canonical)
                head = head[:4] + len(content).to_bytes(4, "big")
            parts += [(8, head), (end - at - 8, content)]
        parts.append((len(data) - end, data[end:]))
        new = b"".join(part for _, part in parts)
        if all(len(chunk) == 1 for chunk in chunks):
            return [bytes([byte]) for byte in new]
        cuts, cut = [0], 0
        for chunk in chunks[:-1]:
            cut += len(chunk)
            cuts.append(self.place(parts, cut))
        return [new[start:stop] for start, stop in zip(cuts, [*cuts[1:], len(new)])]

    def dump(self, version, before, after, text):
        """The dump of a stream that is renumbered: its offsets, its lengths and the order of members."""
        ends = {len(before): len(after)}
        items = {}
        for old, new in zip(self.old.items(version, before), self.new.items(version, after)):
            ends[old[1]], ends[old[2]] = new[1], new[2]
            items[old[1]] = new
        lines = []
        for line in text.splitlines():
            shown = json.loads(line)
            if shown["offset"] in items and "length" in shown:
                _, at, end, _ = items[shown["offset"]]
                shown["length"] = end - at - 8
                if "message" in shown:
                    shown["message"] = self.new.in_rows(f"{shown['type']}Message", shown["message"])
            shown["offset"] = ends[shown["offset"]]
            lines.append(json.dumps(shown, separators=(",", ":"), ensure_ascii=False) + "\n")
        return "".join(lines)

    def schema_of(self, name, content):
        """The message of a payload in a frame of a type: a suspension is one of two."""
        schema = f"{name}Message"
        if name == SUSPENSION and content and content[0] < 128:
            number = content[0] >> 3
            return FLAT if number in self.old.fields[FLAT] and number not in self.old.fields[schema] else schema
        return schema

    def place(self, parts, cut):
        """Where what comes after a place of a stream begins in the other one."""
        at = 0
        for length, part in parts:
            if cut < length:
                return at + (min(cut, len(part) - 1) if part else 0)
            at, cut = at + len(part), cut - length
        return at

    def result(self, words, result):
        """What a line with these words has as its result, if this is what it has before."""
        kind, name = words[0], words[1]
        if kind in ("payload", "merge"):
            return self.word(name, result, True)
        if kind == "frame":
            is_flat = name == SUSPENSION and words[2] in ("5", "6")
            return self.frame(FLAT if is_flat else f"{name}Message", result)
        if kind == "record" and name in self.numbers and result == self.printed_before(name, words[2]):
            return self.new.printed(name, bytes.fromhex(self.word(name, words[2].replace("-", ""), True)))
        if kind == "stream" and words[1].isdigit():
            chunks = [bytes.fromhex(word.replace("-", "")) for word in words[2:]]
            if result == self.old.listing(int(name), b"".join(chunks)):
                return self.new.listing(int(name), b"".join(self.stream(int(name), chunks)))
        return result

    def printed_before(self, name, word):
        try:
            return self.old.printed(name, bytes.fromhex(word.replace("-", "")))
        except (IndexError, KeyError, TypeError, AttributeError):
            return None

    def given(self, words):
        """The words of a line before its result."""
        kind = words[0]
        if kind in ("payload", "merge", "record"):
            return [*words[:2], *(self.word(words[1], word, kind == "record") for word in words[2:])]
        if kind == "frame":
            return [*words[:3], self.word(f"{words[1]}Message", words[3])]
        if kind == "compare":
            return [*words[:2], *(self.word(f"{words[1]}Message", word) for word in words[2:])]
        if kind == "stream" and words[1].isdigit():
            chunks = [bytes.fromhex(word.replace("-", "")) for word in words[2:]]
            return [*words[:2], *(chunk.hex() or "-" for chunk in self.stream(int(words[1]), chunks))]
        return words

    def line(self, line):
        """A line of a file of test vectors, or None if it is left out."""
        self.is_other = False
        line = self.line_with_other_numbers(line)
        return None if self.is_other else line

    def line_with_other_numbers(self, line):
        given, equals, result = line.partition(" = ")
        words = given.split(" ")
        if line.startswith("#") or not equals or len(words) < 3:
            return line
        return f"{' '.join(self.given(words))} = {self.result(words, result)}"

    def lines(self, text):
        """The lines of a file of test vectors, each with what it is now, or with None if it is left out."""
        return [(line, self.line(line)) for line in text.split("\n")]

    def text(self, text):
        return "\n".join(line for _, line in self.lines(text) if line is not None)

    def found(self, text):
        """What is said of lines that are wrong: after each of them what it should have."""
        lines, words = [], None
        for line in text.split("\n"):
            if line.startswith("failed: "):
                words = line.removeprefix("failed: ").partition(" = ")[0].split(" ")
                line = f"failed: {self.line_with_other_numbers(line.removeprefix('failed: '))}"
            elif words:
                line, words = self.result(words, line), None
            lines.append(line)
        return "\n".join(lines)
