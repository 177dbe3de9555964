"""Dumps for the page: the lines of journal dump, from the program or from a file, checked and made short enough.

A dump from a file is anybody's text: each line is read, and only what journal dump prints of an item is kept, so that
the page finds a message's fields to be of their kinds.
"""
import base64
import collections
import hashlib
import json
import re
import sys
import time

# The most characters of a line whose payload is whole in the page, of a text in a line that is longer, and of all
# lines of a journal.
LINE_CHARACTERS = 4 << 20
TEXT_CHARACTERS = 65_532 // 3 * 4
JOURNAL_CHARACTERS = 64 << 20

LEVELS = 100  # of messages at most, as in a payload

# What a dump begins with; as a journal it would begin with a code that is of no type.
DUMP = re.compile(rb'(\xef\xbb\xbf)?\s*\{\s*"')

BASE64 = re.compile(r"(?:[A-Za-z0-9+/]{4})*(?:[A-Za-z0-9+/]{2}==|[A-Za-z0-9+/]{3}=)?")

# What journal dump says of an item in addition to its message, by the type of the value.
MEMBERS = {
    "offset": int, "type": str, "code": int, "length": int, "requestedAck": bool, "malformed": bool, "unknown": bool,
    "skipped": bool, "rest": int, "header": "bytes", "bytes": "bytes",
}  # fmt: skip
NUMBERS = {"u32": (0, 2**32), "u64": (0, 2**64), "enum": (-(2**31), 2**31)}
LIMITS = {"code": 2**16, "length": 2**32}


class Wrong(Exception):
    """What is wrong with a line."""


def read_bytes(value):
    """Bytes in base64, also of an object with their text, as journal dump --text prints them."""
    if isinstance(value, dict) and list(value) == ["text"] and isinstance(value["text"], str):
        return base64.b64encode(value["text"].encode("utf-8", "surrogatepass")).decode()
    if not isinstance(value, str) or not BASE64.fullmatch(value):
        raise Wrong("no bytes in base64")
    return value


def read_number(value, kind):
    """A number of a field, which may be in a text."""
    least, end = NUMBERS[kind]
    try:
        number = int(value) if isinstance(value, str) and re.fullmatch(r"-?\d{1,20}", value) else value
    except ValueError:
        number = None
    if type(number) is not int or not least <= number < end:
        raise Wrong("no such number")
    return value


class Reader:
    """Reads the lines of dumps of one version; `protocol` has its types and messages."""

    def __init__(self, protocol):
        self.protocol = protocol

    def is_command(self, name):
        """Whether the type of this name, which may be none, is a command's."""
        return self.protocol["types"].get(name, {}).get("direction") == "command"

    def value(self, value, kind, at, level):
        """The value of a field of a kind."""
        try:
            if kind in self.protocol["messages"]:
                return self.message(value, kind, at, level + 1)
            if kind == "bytes":
                return read_bytes(value)
            if kind in NUMBERS:
                return read_number(value, kind)
        except Wrong as wrong:
            raise wrong if ":" in str(wrong) else Wrong(f"{at}: {wrong}") from None
        if not isinstance(value, bool if kind == "bool" else str):
            raise Wrong(f"{at}: wrong kind of value")
        return value

    def message(self, value, name, at, level):
        """A message of this name: its fields, each of its kind."""
        if not isinstance(value, dict):
            raise Wrong(f"{at}: wrong kind of value")
        if level > LEVELS:
            raise Wrong(f"{at}: more than {LEVELS} levels")
        fields = self.protocol["messages"][name]
        found = {}
        for key, one in value.items():
            place = f"{at}.{key}"
            if key not in fields:
                raise Wrong(f"{place}: no such field")
            if one is None:
                continue
            if not fields[key].get("list"):
                found[key] = self.value(one, fields[key]["kind"], place, level)
            elif isinstance(one, list):
                kind = fields[key]["kind"]
                found[key] = [self.value(inner, kind, f"{place}[{index}]", level) for index, inner in enumerate(one)]
            else:
                raise Wrong(f"{place}: wrong kind of value")
        return found

    def item(self, text):
        """The members of a line, which are those of an item or of the rest."""
        try:
            line = json.loads(text)
        except RecursionError:
            raise Wrong("more levels than an item has") from None
        except ValueError as error:
            raise Wrong(f"no JSON: {error}; a dump has one object a line") from None
        if not isinstance(line, dict):
            raise Wrong("no JSON object")
        item = {name: self.member(line, name, value) for name, value in line.items() if value is not None}
        item = {name: value for name, value in item.items() if value is not None}
        for name in ("offset",) if "rest" in item else ("offset", "code"):
            if name not in item:
                raise Wrong(f"no {name}: journal dump prints one")
        if "rest" in item:
            return {name: value for name, value in item.items() if name in ("offset", "rest", "bytes")}
        return item

    def member(self, line, name, value):
        """A member of a line, or None for one that journal dump does not print."""
        kind = MEMBERS.get(name)
        if name == "message":
            if not isinstance(line.get("type"), str) or line["type"] not in self.protocol["types"]:
                raise Wrong("message: its type is not known")
            return self.message(value, self.protocol["types"][line["type"]]["message"], "message", 1)
        if kind == "bytes":
            return self.value(value, kind, name, 0)
        if kind and (type(value) is not kind or (kind is int and not 0 <= value < LIMITS.get(name, 2**53))):
            raise Wrong(f"{name}: wrong kind of value")
        return value if kind else None


def compact(value):
    """JSON on one line, as journal dump prints it; with escapes where a text is not UTF-8."""
    text = json.dumps(value, separators=(",", ":"), ensure_ascii=False)
    try:
        text.encode()
    except UnicodeEncodeError:
        return json.dumps(value, separators=(",", ":"))
    return text


def end_of(item):
    """The offset after an item, or after the rest."""
    return item["offset"] + (item["rest"] if "rest" in item else 8 + item.get("length", 0))


def cut(value, path, found):
    """A value with its long texts cut; `found` gets of each its length and its digest, by its path."""
    if isinstance(value, dict):
        return {name: cut(one, f"{path}.{name}" if path else name, found) for name, one in value.items()}
    if isinstance(value, list):
        return [cut(one, f"{path}[{place}]", found) for place, one in enumerate(value)]
    if not isinstance(value, str) or len(value) <= TEXT_CHARACTERS:
        return value
    found[path] = {
        "characters": len(value),
        "padding": len(value) - len(value.rstrip("=")),
        "sha256": hashlib.sha256(value.encode("utf-8", "surrogatepass")).hexdigest(),
    }
    return value[:TEXT_CHARACTERS]


def shortened(line):
    """An item's line that is too long for a page: with the beginning of its long texts, or without its payload."""
    item = json.loads(line)
    found = {}
    if "message" in item:
        item["message"] = cut(item["message"], "", found)
    if "bytes" in item:
        item["bytes"] = cut(item["bytes"], "bytes", found)
    item["cut"] = found
    if len(kept := compact(item)) <= LINE_CHARACTERS:
        return kept
    whole = compact([item.get("message"), item.get("bytes"), found])
    for name in ("message", "malformed", "bytes", "cut"):
        item.pop(name, None)
    return compact({**item, "leftOut": hashlib.sha256(whole.encode()).hexdigest()})


class Progress:
    """Says on the standard error how far a journal is read: on a terminal each second in one line, and to a file or a
    pipe each fifteen seconds, in a line of its own."""

    def __init__(self, name, total=None):
        self.name, self.total, self.items = name, total, 0
        self.is_terminal = sys.stderr is not None and sys.stderr.isatty()
        self.every = 1 if self.is_terminal else 15
        self.next = time.monotonic() + self.every
        self.is_said = False

    def count(self, read):
        """One item more; `read` bytes are read by then."""
        self.items += 1
        if self.items % 64 or time.monotonic() < self.next or sys.stderr is None:
            return
        self.next = time.monotonic() + self.every
        part = f", {100 * read // self.total} %" if self.total else ""
        text = f"view: {self.name}: {self.items:,} items{part}"
        print(f"\r{text}\x1b[K" if self.is_terminal else text, end="" if self.is_terminal else "\n", file=sys.stderr)
        sys.stderr.flush()
        self.is_said = True

    def end(self):
        """Takes the line of a terminal away."""
        if self.is_said and self.is_terminal:
            print("\r\x1b[K", end="", file=sys.stderr, flush=True)


class Lines:
    """The lines of a journal that a page keeps, as many as there is room for; the others are counted. They are the
    first ones, or, of a journal that has more than that, those from the command with the index `start` on."""

    def __init__(self, most, start=0):
        self.most, self.start = most, start
        self.lines = collections.deque()  # each with whether it is a command's
        self.items = self.commands = self.characters = 0
        self.first_item = self.first_command = 0  # how many items and commands come before those that are kept
        self.is_full = False

    def add(self, line, is_command):
        """Counts an item, and keeps its line if there is room."""
        self.items += 1
        self.commands += is_command
        if self.is_full:
            return
        kept = line if len(line) <= LINE_CHARACTERS else shortened(line)
        self.lines.append((kept, is_command))
        self.characters += len(kept)
        while len(self.lines) > self.most or self.characters > JOURNAL_CHARACTERS:
            if self.first_command >= self.start:
                self.characters -= len(self.lines.pop()[0])
                self.is_full = True
                return
            self.drop_first()

    def drop_first(self):
        """Drops the first line that is kept."""
        line, is_command = self.lines.popleft()
        self.characters -= len(line)
        self.first_item += 1
        self.first_command += is_command

    def begin_at(self, command):
        """Drops what comes before a command, by its index."""
        while self.lines and self.first_command < command:
            self.drop_first()

    def journal(self, name, rest, **more):
        """The journal for the page, whose last line is that of the rest."""
        last = compact(rest)
        return {
            "name": name,
            "items": self.items,
            "commands": self.commands,
            "shown": len(self.lines),
            "firstItem": self.first_item,
            "firstCommand": self.first_command,
            "bytes": end_of(rest),
            "lines": [*(line for line, _ in self.lines), last if len(last) <= LINE_CHARACTERS else shortened(last)],
            **more,
        }


def read_dump(file, name, reader, kept, total=None):
    """What is kept of the lines of a dump, whose bytes a file has, and what makes the journal for the page of
    it. Raises Wrong with the number of a line."""
    rest, end, gaps = None, 0, 0
    progress = Progress(name, total)
    characters = 0
    for number, data in enumerate(file, 1):
        characters += len(data)
        try:
            text = data.decode("utf-8-sig" if number == 1 else "utf-8").strip()
            if not text:
                continue
            if rest is not None:
                raise Wrong("a line after that of the rest")
            item = reader.item(text)
        except UnicodeDecodeError:
            raise Wrong(f"{number}: no UTF-8") from None
        except Wrong as wrong:
            raise Wrong(f"{number}: {wrong}") from None
        gaps += item["offset"] != end
        end = end_of(item)
        if "rest" in item:
            rest = item
        else:
            kept.add(compact(item), reader.is_command(item.get("type")))
            progress.count(characters)
    progress.end()
    # a dump that ends early has no line of the rest
    is_whole = rest is not None
    return {"name": name, "rest": rest or {"offset": end, "rest": 0}, "dump": {"isWhole": is_whole, "gaps": gaps}}
