"""The payloads and frames that packages, tests in C and pages quote, with the numbers of another description.

A literal is a text of hexadecimal digits, a text with escapes or a list of bytes, in the language of its file. What it
is does not depend on where it stands: MEANS says it of each, by its bytes, and one that is nothing but whole frames of
types is a stream. A literal that is neither stays as it is, as do bytes that are malformed with any numbers.
"""
import re

from . import renumbered

# The files that quote some: hand-written, and in these languages.
FOLDERS = (
    "README.md", "docs", "examples", "go", "node", "python", "ruby", "rust", "scripts/checks", "tests/c", "view/tests",
)
SUFFIXES = (".c", ".go", ".js", ".mjs", ".md", ".py", ".rb", ".rs", ".sh", ".ts")

# A literal in the form of its language, with what joins the parts of one that has several.
HEX = re.compile(r"""(?<![\w\\])(?P<quote>["'`])(?P<hex>(?:[0-9a-f]{2})+(?: (?:[0-9a-f]{2})+)*)(?P=quote)""")
BARE = re.compile(r"""(?<![\w\\"'`])(?:[0-9a-f]{2}){6,}(?![\w"'`])""")
TEXT = re.compile(r"""(?<![\w\\'])b?(?P<quote>["'])(?P<text>(?:(?!(?P=quote))[^\\\n]|\\.)*)(?P=quote)""", re.S)
BYTE = r"""(?:0x[0-9A-Fa-f]{1,2}|\d{1,3}|b?'(?:[^'\\]|\\.)')"""
LIST = re.compile(
    rf"(?P<open>[\[{{(]|^#define \w+ )(?P<held>\s*{BYTE}[ \n]*(?:,\s*{BYTE}[ \n]*)+,?\s*?)(?P<close>[\]}})]|$)", re.M
)
JOINED = re.compile(r"""\s*[+\\]?\s*""")

# A line of test vectors on a page.
VECTOR = re.compile(r"(^ +(?:canonical|compare|fields|frame|json|merge|payload|read|record|stream) .* = .*\n)", re.M)

ESCAPES = {"n": 10, "r": 13, "t": 9, "0": 0, "b": 8, "a": 7, "f": 12, "v": 11, "e": 27, "\\": 92, '"': 34, "'": 39}


def text_bytes(text):
    """The bytes of a literal's text, or None where it has more than bytes."""
    out = bytearray()
    for hexadecimal, _, escape, other in re.findall(
        r"""\\x([0-9a-fA-F]{2})|(\\\n\s*)|\\(.)|([^\\])""", text, re.S
    ):
        if hexadecimal:
            out.append(int(hexadecimal, 16))
        elif escape:
            if escape not in ESCAPES:
                return None
            out.append(ESCAPES[escape])
        elif other:
            if not 32 <= ord(other) < 127:
                return None
            out.append(ord(other))
    return bytes(out)


def list_bytes(held):
    """The bytes of a list, or None."""
    out = []
    for one in re.findall(BYTE, held):
        if "'" in one:
            data = text_bytes(one[one.index("'") + 1:-1])
            if data is None or len(data) != 1:
                return None
            out.append(data[0])
        else:
            out.append(int(one, 0) if one == "0" or not one.startswith("0") or "x" in one else 256)
    return bytes(out) if max(out) < 256 else None


# What the literals mean, by their bytes: payloads of messages, some of them the first bytes of a longer one.
MEANS = {
    "CallCommandMessage": ("22061201760a016b", "22060a016b120176", "0a00"),
    "CallCompletionNotificationMessage": ("08022a040a026869",),
    "ErrorMessage": (
        "0801120178", "0805120474657874", "1203616263", "120178", "120474657874", "12e807", "127f", "1202c3a9",
    ),
    "Failure": ("0805",),
    "InputCommandMessage": ("72070a05696e707574",),
    "NotificationTemplate": (
        "0800", "0802", "1011", "1001", "1a00", "1a0361c3a9", "1a0473746f70", "2200", "2a030a0178", "3203088500",
        "820103696e76", "82010469c3a976", "8a01030a0161", "08002200", "08012200", "08092200", "08ac022200",
        "08ffffffff0f2200", "10112200", "1a002200", "1a0361c3a92200", "1a0473746f702200", "1a04efbbbf612200",
        "10112a030a0178", "1a0473746f70820103696e76", "080932020805", "08098a01030a016b", "1a0473746f702a030a0178",
        "32020805", "8a01030a016b", "1a01732a030a0178",
    ),
    "ProposeRunCompletionMessage": ("0801720178", "088100"),
    "SetStateCommandMessage": (
        "0a01611a030a0131", "0a01611a030a0132", "0a016b1a030a0131", "0a07636f756e7465721a030a0131",
        "0a07636f756e7465721a040a023232", "0a8100611a050a82007879", "0a81000a1a050a82007879", "0a010a1a030a0132",
        "0aa01f", "0a016b", "0a016c", "0a0173", "0a02c3a9",
    ),
    "SleepCommandMessage": ("0805620178",),
    "StartMessage": ("0a016922030a016b28014009",),
    "StateKeys": ("0a0161", "0a0162", "0a01610a0162"),
    "SuspensionMessage": (
        "22120a010122080a010222030a010122030a0103", "2210120101220b0a01011201111a03616263",
    ),
    "SuspensionMessageV6": (
        "0801", "08010a0202030804", "08010a020203", "0a0401020304", "0a03010203", "0a020203", "0a020102", "0a0101",
        "0a0102", "0a0101120201111a03616263",
    ),
    "Future": ("0a01071a01732801",),
    "Value": ("0a0178", "0a026869", "0a810078", "0a0278"),
}

# Where the same bytes mean another message, by the end of a file's path.
ELSEWHERE = {
    "scripts/checks/write_stream.py": {"0a0173": "CallCommandMessage", "120168": "CallCommandMessage"},
    "rust/src/calls.rs": {"0a00": "Value"},
    "rust/src/schema.rs": {"0a00": "Value"},
    "rust/tests/kinds.rs": {"0801": "ProposeRunCompletionMessage", "0a016b": "ClearStateCommandMessage"},
    "rust/tests/adversarial.rs": {"0a016b": "ClearStateCommandMessage"},
    "node/test/calls.test.js": {"0802": "SuspensionMessageV6"},
    "node/test/records.test.js": {"0a0101": "Value"},
    "go/compare_test.go": {"0a0161": "SetStateCommandMessage"},
    "ruby/test/test_items.rb": {"0801": "ProposeRunCompletionMessage"},
    "tests/c/constants.c": {"0801": "NotificationTemplate", "0a016b": "StateEntry"},
    "tests/c/hostile_calls.c": {"0801": "NotificationTemplate"},
}

# The streams that are not only whole messages of types without flags, by the version at which they are read.
STREAMS = {
    8: (
        "040012340000000972070a05696e707574" "040300000000000b0a81000a1a050a82007879"
        "fc01ffff00000001ff0008a5a500000000" "0003000000000000",
        "040012340000000972070a05696e707574" "040300000000000b0a8100611a050a82007879"
        "fc01ffff00000001ff0008a5a500000000" "0003000000000000",
        "040012340000000972070a05696e707574" "fc01ffff00000001ff0008a5a500000000",
        "0008000000000000" "00058000000000050801720178" "0400000000000014" "0a",
        "0008000000000000" "00058000000000050801720178" "0400000000000014" "01",
    ),
}


def written(path, data):
    """Bytes as a text of the language of a file; in C a letter after an escape would be one of its digits."""
    if path.endswith(".c"):
        return "".join(f"\\x{byte:02X}" for byte in data)
    # as Ruby shows a text
    shown = {byte: f"\\{letter}" for letter, byte in ESCAPES.items() if letter in "nrtbafve"} if "ruby" in path else {}
    escape = "\\x{:02X}" if "ruby" in path else "\\x{:02x}"
    plain = {byte: chr(byte) for byte in range(32, 127) if chr(byte) not in "\"'\\#"}
    return "".join({**plain, **shown}.get(byte) or escape.format(byte) for byte in data)


def listed(byte, letter):
    """A byte in a list, where characters are written so or not at all."""
    if letter and chr(byte).isascii() and chr(byte).isalnum():
        return letter.format(chr(byte))
    return str(byte) if byte < 10 else f"0x{byte:02X}"


def paths(top):
    """The paths of the files that may have literals, in order."""
    for folder in FOLDERS:
        found = [top / folder] if (top / folder).is_file() else sorted((top / folder).rglob("*"))
        for place in found:
            if place.suffix in SUFFIXES and place.is_file():
                with place.open("rb") as opened:
                    if b"@generated" not in opened.readline():
                        yield str(place.relative_to(top))


class Literals:
    """What a renumbering makes of the literals of files, and of lines of listings; how many are others now."""

    def __init__(self, renumbering, listings=()):
        self.renumbering = renumbering
        self.old = renumbering.old
        self.means = {word: name for name, words in MEANS.items() for word in words}
        self.versions = {word: version for version, words in STREAMS.items() for word in words}
        self.listings = dict(listings)
        # lines of listings, and JSON
        words = "|".join(
            rf"\b{re.escape(old)}\b(?!\.)" if old[-1].isdigit() else re.escape(old) for old in self.listings
        )
        self.lines = re.compile(f"({words})") if words else None
        self.count = 0

    def changed(self, path, pieces):
        """The other bytes of a literal that is in several parts, or None where it is nothing that is known."""
        data = b"".join(pieces)
        elsewhere = next((words for end, words in ELSEWHERE.items() if path.endswith(end)), {})
        schema = elsewhere.get(data.hex(), self.means.get(data.hex()))
        if schema:
            return [self.renumbering.payload(schema, data, None)]
        version = self.versions.get(data.hex(), renumbered.SKIPPED_FROM if self.old.is_stream(data) else None)
        return self.renumbering.stream(version, pieces, None) if version else None

    def text(self, path, text):
        """The text of a file; lines of test vectors on pages stay, since these are renumbered as such."""
        if path.endswith(".md"):
            return "".join(
                part if VECTOR.match(part) else self.of_text_without(path, part) for part in VECTOR.split(text)
            )
        return self.of_text_without(path, text)

    def of_text_without(self, path, text):
        """The text of a file, or of a part of it, without lines of test vectors."""
        text = self.of_pieces(path, text)
        text = BARE.sub(lambda match: self.of_bare(path, match), text)
        text = TEXT.sub(lambda match: self.of_text(path, match), text)
        text = LIST.sub(lambda match: self.of_list(path, match), text)
        return self.of_listings(text)

    def of_listings(self, text):
        """A text with the lines of listings that are others now."""
        return self.lines.sub(self.of_line, text) if self.lines else text

    def of_line(self, match):
        self.count += 1
        return self.listings[match[1]]

    def of_pieces(self, path, text):
        """Texts of hexadecimal digits, which may be several with nothing but what joins them between them."""
        found, out, at = list(HEX.finditer(text)), [], 0
        place = 0
        while place < len(found):
            end = place + 1
            while end < len(found) and JOINED.fullmatch(text, found[end - 1].end(), found[end].start()):
                end += 1
            run = found[place:end]
            new = self.changed(path, [bytes.fromhex(match["hex"]) for match in run]) if len(run) > 1 else None
            # a payload stays in one
            new = new if new and len(new) == len(run) else None
            for match, other in zip(run, new or [None] * len(run)):
                pieces = [bytes.fromhex(word) for word in match["hex"].split()]
                others = [other] if other is not None else self.changed(path, pieces)
                if others is None and len(pieces) > 1:
                    others = [part for piece in pieces for part in self.changed(path, [piece]) or [piece]]
                if others is None:
                    continue
                word = " ".join(part.hex() for part in others)
                self.count += word != match["hex"]
                out += [text[at:match.start("hex")], word]
                at = match.end("hex")
            place = end
        return "".join([*out, text[at:]])

    def of_bare(self, path, match):
        """Digits without quotes, as a comment or a page has them."""
        new = self.changed(path, [bytes.fromhex(match[0])])
        if not new or new[0].hex() == match[0]:
            return match[0]
        self.count += 1
        return new[0].hex()

    def of_text(self, path, match):
        data = text_bytes(match["text"])
        if not data or "\\" not in match["text"]:
            return match[0]
        new = self.changed(path, [data])
        if new is None or new[0] == data:
            return match[0]
        self.count += 1
        return match[0].replace(match["text"], written(path, new[0]))

    def of_list(self, path, match):
        # a few decimal numbers are not bytes
        is_bytes = "0x" in match["held"] or "'" in match["held"] or match["held"].count(",") > 6
        data = list_bytes(match["held"]) if is_bytes else None
        new = data and self.changed(path, [data])
        if not new or new[0] == data:
            return match[0]
        self.count += 1
        letter = "b'{}'" if "b'" in match["held"] else "'{}'" if "'" in match["held"] else None
        held = ", ".join(listed(byte, letter) for byte in new[0])
        return f"{match['open']}{held}{match['close']}"
