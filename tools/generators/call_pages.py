"""What pages repeat of proto/calls.json: the rows of the calls in docs/LANGUAGES.md and of the errors in docs/C.md. All
else of these pages is written by hand.
"""
import re

from . import ROOT, missing  # noqa: F401
from .calls_data import LANGUAGES, PATH, calls, errors

ABOUT = "The rows of calls and of errors on pages."
SOURCE = PATH

# The head of each table, whose rows follow the line below it.
CALLS = ("docs/LANGUAGES.md", "| What | C | Python | Rust | Go | Ruby | TypeScript |")
ERRORS = ("docs/C.md", "| Number | Name | When | What can be done |")


def call_rows():
    for call in calls():
        if call.row:
            names = [call.symbol(), *(call.name_in(language) for language in LANGUAGES)]
            yield f"| {call.row} | " + " | ".join(f"`{name}`" for name in names) + " |\n"


def error_rows():
    for error in errors():
        then = f" {error['then']} |" if error["then"] else " |"
        yield f"| {error['number']} | `JOURNAL_{error['name']}` | {error['when']} |{then}\n"


def paths():
    return sorted([CALLS[0], ERRORS[0]])


def files():
    found = {}
    for (path, head), rows in ((CALLS, call_rows()), (ERRORS, error_rows())):
        text = (ROOT / path).read_text(encoding="utf-8")
        table = re.compile(rf"^({re.escape(head)}\n\|[-|]+\|\n)(?:\|.*\n)*", re.M)
        found[path] = table.sub(lambda match: match[1] + "".join(rows), text, count=1)
    return found
