"""What pages repeat of proto/journal.proto: how many schemas, types and commands there are, wherever a page or the
header for C says so, the kinds of types in docs/FORMAT.md, and the list of schemas in docs/C.md; of the description of
the programs: how each is used in docs/PROGRAMS.md, and what its arguments do; and of docs/PERFORMANCE.md: the table of
speed in README.md. All else of these files is written by hand.
"""
import re
import textwrap

from . import ROOT, Refused, missing, programs  # noqa: F401
from .proto import schemas, typed

ABOUT = "Pages: the numbers of schemas, types and commands, the programs' arguments, the table of speed in README.md."
SOURCE = "proto/journal.proto, proto/programs.toml and docs/PERFORMANCE.md"

PAGES = ("README.md", "CHANGELOG.md", "bench/README.md", "conformance/README.md", "docs/*.md", "crates/*/README.md")

# Pages that say what was measured at their time.
MEASURED = ("docs/GATE.md", "docs/PERFORMANCE.md")

SAID = re.compile(
    r"((?:[Tt]he|[Aa]ll|its|these|each of the) )(\d+)( (?:named )?(schemas|records|types|codes|commands))\b"
)

# The page on what bytes are: the row of the types with their kinds.
FORMAT = "docs/FORMAT.md"
TYPES_ROW = re.compile(
    r"^(\| one of the )\d+( in \[conformance/frames\.txt\]\(\S+\) \| the type of that name: ).*( \|)$", re.M
)

# The page on test vectors: how many lines give a type's code.
VECTORS = "conformance/README.md"
CODE_LINES = re.compile(r"^(    frames\.txt, )\d+(: The code of each message type)$", re.M)

LISTED = "docs/C.md"
LIST = "\n## Numbers of schemas\n"
LIST_MARK = "\n<!-- Written by tools/generate.py pages from here on. -->\n\n"

# The page on the programs: the head of a program's section with how it is used, and the list of its arguments.
PROGRAMS = "docs/PROGRAMS.md"
USED = "(## {name}: .*\n\n)(?:    .*\n)+"
ARGUMENTS = re.compile(r"(<!-- Written by tools/generate\.py pages\. -->\n\n)(?:(?:- |  ).*\n)+")
# What is said of an argument that the page says once of all programs.
AS_FOR_DUMP = "as for `journal dump`."

# The first page: its table of speed, whose rows are those of the page of measurements that begin with these cells.
FRONT = "README.md"
SPEED = re.compile(r"(<!-- Written by tools/generate\.py pages of docs/PERFORMANCE\.md\. -->\n\n)(?:\|.*\n)+")
MEASUREMENTS = "docs/PERFORMANCE.md"
SPEED_ROWS = (
    ("items of a replay, out of one chunk", "Items of a stream", ("replay", "`items`", "whole")),
    ("its messages, each decoded to its record", "Typed messages", ("replay", "`messages`", "whole")),
    ("its frames, into a `Vec` that is used again", "Frames written", ("replay", "`encode_into`")),
    ("frames of all types, each into `Bytes` of its own", "Frames written", ("mixed", "`encode`")),
    ("frames of a mebibyte, into a `Vec` that is used again", "Frames written", ("large", "`encode_into`")),
)
UNITS = {"M": "million", "k": "thousand"}


def counted():
    """How many of each there are, by the words for them."""
    commands = sum(message.is_command() for message in typed())
    return {
        "schemas": len(schemas()),
        "records": len(schemas()),
        "types": len(typed()),
        "codes": len(typed()),
        "commands": commands,
    }


def numbered(text, counts):
    """A page with its numbers of schemas, types and commands."""
    return SAID.sub(lambda match: f"{match[1]}{counts[match[4]]}{match[3]}", text)


def kinds_of_types():
    """How many types there are of each kind, and from which code to which."""
    commands = [message.code for message in typed() if message.is_command()]
    notifications = [message.code for message in typed() if message.is_notification()]
    others = len(typed()) - len(commands) - len(notifications)
    return f"{others} for the start, the end and what is between" + "".join(
        f", {len(codes)} {kind} (from `{codes[0]:04x}` to `{codes[-1]:04x}`)"
        for kind, codes in (("commands", commands), ("notifications", notifications))
    )


def format_page(text):
    """The page on what bytes are."""
    return TYPES_ROW.sub(lambda match: f"{match[1]}{len(typed())}{match[2]}{kinds_of_types()}{match[3]}", text)


def list_of_schemas():
    """The numbers of schemas, with their names."""
    listed = ", ".join(f"{message.schema} `{message.name}`" for message in schemas())
    # a number and its name stay on one line
    lines = textwrap.wrap(listed.replace(" `", "\u00a0`"), 118, break_long_words=False, break_on_hyphens=False)
    return "\n".join(lines).replace("\u00a0", " ") + ".\n"


def list_of_arguments(program):
    """What a program's arguments do, an item for each that is not just as for another program."""
    wrapped = (
        textwrap.wrap(f"{tag}: {said}", 118, break_long_words=False, break_on_hyphens=False)
        for tag, said in program.items()
        if said != AS_FOR_DUMP
    )
    return "".join("- " + "\n  ".join(lines) + "\n" for lines in wrapped)


def programs_page(text):
    """The page on the programs."""
    sections = re.split(r"^(?=## )", text, flags=re.M)
    for program in programs.programs():
        if program.host:
            continue
        at = next(place for place, section in enumerate(sections) if section.startswith(f"## {program.called}: "))
        used = "".join(f"    {each.synopses()[0]}\n" for each in program.with_guests())
        section = re.sub(USED.format(name=program.called), lambda match: match[1] + used, sections[at])
        sections[at] = ARGUMENTS.sub(lambda match: match[1] + list_of_arguments(program), section)
    return "".join(sections)


def rows_of(section):
    """The rows of a section's tables, each its cells by their headings."""
    heads = None
    for line in section.splitlines():
        cells = [cell.strip() for cell in line.strip("|").split("|")]
        if not line.startswith("|"):
            heads = None
        elif heads is None:
            heads = cells
        elif set(line) - set("|-"):
            yield dict(zip(heads, cells, strict=True))


def speed_row(sections, about, heading, beginning):
    """A row of the table of speed, of the row of a section that begins with these cells."""
    section = sections.get(heading, "")
    found = [row for row in rows_of(section) if tuple(row.values())[:len(beginning)] == beginning]
    rate = re.fullmatch(r"([\d.]+) ([Mk])", found[0]["ours a second"]) if len(found) == 1 else None
    if rate is None:
        raise Refused([f"{MEASUREMENTS}: {heading} has no row {' | '.join(beginning)} with a rate"])
    return f"| {about} | {rate[1]} {UNITS[rate[2]]} | {found[0]['ratio'].partition(' ')[0]} |\n"


def front_page(text):
    """The first page."""
    measured = re.split(r"^## (.*)\n", (ROOT / MEASUREMENTS).read_text(encoding="utf-8"), flags=re.M)
    sections = dict(zip(measured[1::2], measured[2::2], strict=True))
    head = "| Work | a second | ratio |\n|---|---|---|\n"
    return SPEED.sub(lambda match: match[1] + head + "".join(speed_row(sections, *row) for row in SPEED_ROWS), text)


def paths():
    found = {str(file.relative_to(ROOT)) for pattern in PAGES for file in ROOT.glob(pattern)}
    return sorted(found - set(MEASURED))


def files():
    counts = counted()
    found = {}
    for path in paths():
        text = (ROOT / path).read_text(encoding="utf-8")
        text = numbered(text, counts)
        if path == FRONT:
            text = front_page(text)
        if path == FORMAT:
            text = format_page(text)
        if path == VECTORS:
            text = CODE_LINES.sub(lambda match: f"{match[1]}{len(typed())}{match[2]}", text)
        if path == PROGRAMS:
            text = programs_page(text)
        if path == LISTED:
            text = text.partition(LIST)[0] + LIST + LIST_MARK + list_of_schemas()
        found[path] = text
    return found
