"""The codes of types, which comments of a .proto file say."""
import re

from generators.model import COMMANDS, NOTIFICATIONS

# How a comment says a code: in one number, as a sum, or as numbers whose bits are joined. The second number may be
# hexadecimal without saying so. Without a colon or a sign of equality, only a hexadecimal number is one. Words are of
# ASCII. The crate descriptor_set reads the same for `journal`; the check schema compares both.
CODE = re.compile(
    r"\b(?:message )?(?:type|code)(?:\s*[:=]\s*|\s+(?=(?:`|<code>)?0x))(?:`|<code>)?(?P<first>0x[0-9A-F]+|\d+)"
    r"(?:\s*(?P<sign>[+|])\s*(?P<second>0x[0-9A-F]+|[0-9A-F]+))?\b(?:`|</code>)?\.?",
    re.I | re.A,
)


def number_of(digits, base):
    """The number of some digits, which are of this base unless they say another one."""
    return int(digits, 16 if digits[:2] in ("0x", "0X") else base)


def places(message):
    """Where a comment may say the code of a message: above it, after its opening brace, above its first field."""
    return [message.comment, message.after, *(field.comment for field in message.fields[:1])]


def said(message):
    """The codes as comments say them, in the first place where there is one."""
    return next((found for text in places(message) if (found := [*CODE.finditer(text)])), [])


def codes_of(message, base):
    """The codes that are said of a message. What is added to a number there has digits of this base."""
    found = []
    for match in said(message):
        first, second = number_of(match["first"], 10), number_of(match["second"] or "0", base)
        found.append(first | second if match["sign"] == "|" else first + second)
    return found


def code_of(message, base, usual=None):
    """The code of a message, or None: where several are said, the one that it has here, or else the last one."""
    found = codes_of(message, base)
    return usual if usual in found else found[-1] if found else None


def without_code(text):
    """A comment without the codes in it."""
    return CODE.sub("", text).strip(" .,;-")


def kind_of(code):
    """What kind of type has a code, or None."""
    if code is None or code >= NOTIFICATIONS.stop:
        return None
    return "a command" if code in COMMANDS else "a notification" if code in NOTIFICATIONS else "the core's"


def ending(code):
    """How the name of a message with a code ends."""
    return {"a command": "CommandMessage", "a notification": "NotificationMessage"}.get(kind_of(code), "Message")


def free_code(code, taken):
    """A code of the same kind that is free."""
    kind = kind_of(code)
    return next(free for free in range(code + 1, code + 0x8000) if kind_of(free) == kind and free not in taken)


def base_of(pairs):
    """The base of the numbers that comments add to others, which do not say it, and why it is not the usual one:
    hexadecimal where one has a letter, or where more types have their codes of here then."""
    added = [match["second"] for other in pairs.theirs.values() for match in said(other) if match["second"]]
    lettered = next((digits for digits in added if re.fullmatch(r"\d*[A-Fa-f]\w*", digits)), None)

    def same(base):
        ours = {name: message.options.get("code") for name, message in pairs.ours.items()}
        return sum(code_of(other, base, ours[name]) == ours[name] for name, other in pairs.found.items())

    if lettered is not None:
        return 16, f"'{lettered}' is"
    return (16, "more types have their codes of here then") if same(16) > same(10) else (10, "")
