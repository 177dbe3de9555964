"""The man pages of the programs and of the library for C, from the description of the programs and of the calls,
docs/PROGRAMS.md, docs/C.md, include/pendratsoa.h and include/pendratsoa_reader.h."""
import functools
import re
import textwrap
import typing

from . import ROOT, Refused, missing, programs  # noqa: F401
from .calls_data import entries, errors, paragraphs, sentence_of_errors
from .calls_data import calls as described_calls
from .pages import ARGUMENTS
from .versions import library_version

ABOUT = "The man pages of the programs and of the library for C."
SOURCE = "proto/programs.toml, proto/calls.json, docs/PROGRAMS.md, docs/C.md and the headers in include"

# The day on which the text of the pages last changed.
DATE = "2026-11-30"

# What docs/C.md says that belongs into the page of the library: the heading there, and the section's name here.
LIBRARY_SECTIONS = (
    ("Structs of messages", "STRUCTS OF MESSAGES"),
    ("Streams in chunks", "STREAMS IN CHUNKS"),
    ("Memory and threads", "MEMORY AND THREADS"),
    ("Errors", "ERRORS"),
    ("What may change, and when", "COMPATIBILITY"),
    ("What is proved", "PROOFS"),
)

HEADER = "include/pendratsoa.h"
READER = "include/pendratsoa_reader.h"

# What the page of each function says in its line of names.
TITLES = {
    "journal_library_version": "the version of the library",
    "journal_schema": "the number of the schema of a type",
    "journal_type_name": "the name of a type by its code",
    "journal_type_code": "the code of a type by its name",
    "journal_next": "find the item that bytes begin with",
    "journal_next_within": "find an item within a limit",
    "journal_items": "find the items that bytes begin with",
    "journal_header": "write the header of a message",
    "journal_frame": "write a message, its header and its payload",
    "journal_is_well_formed": "whether a payload is well-formed",
    "journal_canonical": "write the canonical payload",
    "journal_merge": "merge two payloads",
    "journal_json": "write a payload as JSON",
    "journal_payload_of_json": "read a payload from JSON",
    "journal_fields": "the fields of a payload as a table",
    "journal_payload_of_fields": "write a payload from a table of fields",
    "journal_notification": "the id and the result of a notification",
    "journal_header_eq": "whether two commands are the same",
    "journal_difference": "the text of how two commands differ",
    "journal_changed_field": "a field in which two commands differ",
    "journal_verdict": "compare two journals",
    "journal_replay_check": "check the next item of a replay",
    "journal_replay_text": "the text of a mismatch",
    "journal_replay_expected": "the next command of a recording",
    "journal_replay_finish": "what is left of a recording",
    "journal_numbering": "make a table of other field numbers",
    "journal_numbering_text": "what a descriptor set has of the protocol",
    "journal_renumber": "write a payload at other field numbers",
    "journal_renumber_stream": "write a stream at other field numbers",
    "journal_numbering_dump": "a stream as JSON by a descriptor set",
    "journal_error_text": "what an error says",
    "journal_reading_name": "the name of how a JSON text was read",
    "journal_writing_name": "the name of how a table of fields was written",
    "journal_id_name": "the name of the kind of an id",
    "journal_result_name": "the name of the kind of a result",
    "journal_verdict_name": "the name of the kind of a verdict",
    "journal_memory_grow": "make memory larger",
    "journal_memory_grow_for": "make memory larger for what a call writes",
    "journal_memory_free": "free memory",
    "journal_is_command": "whether a code is that of a command",
    "journal_is_notification": "whether a code is that of a notification",
    "journal_reader_of": "make a reader of a stream",
    "journal_reader_pending": "how many bytes are pending",
    "journal_reader_header": "the header of the item that comes next",
    "journal_reader_finish": "what a stream ended with",
    "journal_reader_room": "room for a chunk of a stream",
    "journal_reader_came": "take a chunk that is in the room",
    "journal_reader_feed": "append a chunk of a stream",
    "journal_reader_next": "take the next item of a stream",
    "journal_reader_free": "free the memory of a reader",
    "journal_recorded_rest": "how many bytes follow the items of a recording",
}

# The kinds of proto/calls.json that a struct has numbers of, if they do not have its name.
KINDS_OF = {
    "notification": ("id", "result"),
    "mismatch": ("verdict",),
    "replay": ("option",),
}

# Those that a function takes in another way.
KINDS_TAKEN = {
    "numbering": ("direction",),
    **{f"{entry['kinds']}_name": (entry["kinds"],) for entry in entries("kinds") if entry["python"]},
}

INCLUDED = "#include <pendratsoa.h>\n#include <pendratsoa_messages.h>\n#include <pendratsoa_reader.h>"

# What roff reads as more than the character itself.
ESCAPED = {"\\": "\\e", "-": "\\-", "'": "\\(aq", "`": "\\(ga", "^": "\\(ha", "~": "\\(ti"}


def read(path):
    return (ROOT / path).read_text(encoding="utf-8")


def literal(text):
    """Text in which each character stands for itself."""
    return "".join(ESCAPED.get(letter, letter) for letter in text)


def plain(text):
    """Prose: hyphens may be hyphens."""
    return literal(text).replace("\\-", "-").replace("\\(aq", "'")


def inline(text):
    """A line of Markdown: code and strong text are bold, and a link is its text, or is left out with its parentheses:
    the page is not installed."""
    text = re.sub(r" \(\[[^]]*\]\([^)]*\)\)", "", text)
    text = re.sub(r"\[([^]]*)\]\([^)]*\)", r"\1", text)
    parts = re.split(r"`([^`]*)`", text)
    found = ""
    for index, part in enumerate(parts):
        if index % 2:
            found += f"\\fB{literal(part)}\\fR".replace(" ", "\\~")
        else:
            found += re.sub(r"\*\*(.*?)\*\*", r"\\fB\1\\fR", plain(part))
    return found


def filled(text):
    """A paragraph's lines; none is read as a request."""
    lines = textwrap.wrap(inline(" ".join(text.split())), 78, break_long_words=False, break_on_hyphens=False)
    return "".join(f"\\&{line}\n" if line[0] in ".'" else f"{line}\n" for line in lines)


def as_it_is(text):
    """Lines that are shown as they are."""
    lines = (f"\\&{line}" if line[:1] in (".", "\\") else line for line in literal(text).split("\n"))
    return ".nf\n" + "\n".join(lines) + "\n.fi\n"


def example(text):
    """Code, as it is and further to the right."""
    return f".PP\n.RS 4\n{as_it_is(text)}.RE\n"


# Code between fences, code that is indented, in which lines may be empty, and all else up to an empty line.
BLOCK = re.compile(r"^(?:```(?:.|\n)*?^```|    .*(?:\n+    .*)*|(?:.+(?:\n|\Z))+)", re.M)


def blocks(text):
    """The paragraphs, items, tables, code and headings of a section: its kind and its text."""
    for block in BLOCK.findall(text):
        block = block.rstrip("\n")
        if block.startswith("```"):
            yield "code", block.strip("`").partition("\n")[2].rstrip("\n")
        elif block.startswith("    "):
            yield "code", textwrap.dedent(block)
        elif block.startswith("|"):
            yield "table", block
        elif block.startswith("- "):
            for item in re.split(r"^- ", block, flags=re.M)[1:]:
                yield "item", item
        elif block.startswith("### "):
            yield "heading", block.removeprefix("### ")
        else:
            yield "paragraph", block


def section(page, heading):
    """What is below the heading of a page of Markdown that begins so, without comments and what is generated below one,
    and the rest of the heading."""
    found = re.search(rf"^## {re.escape(heading)}(.*)\n+((?:(?!^## ).*\n)*)", page, re.M)
    return re.sub(r"<!--.*?-->", "", ARGUMENTS.sub("", found[2])), found[1]


def title(name, text):
    """The line of a page's name, which is not filled: mandoc complains of one of more than 80 bytes."""
    line = f"{name} \\- {inline(text[0].lower() + text[1:])}\n"
    assert len(line.encode()) <= 81, f"the title of {name} is too long: {line}"
    return line


def page(name, number, *sections):
    """A man page, of sections with their names; those without a text are left out."""
    # the middle of the first line is left empty if the name, which is on both sides, leaves no room for it
    manual = ' ""' if len(name) > 22 else ""
    head = f'.TH {name.upper()} {number} {DATE} "pendratsoa {library_version()}"{manual}\n.nh\n.ad l\n'
    text = "".join(f".SH {title}\n{text}" for title, text in sections if text)
    # a heading begins a paragraph by itself
    return head + re.sub(r"^(\.S[HS] .*\n)\.PP\n", r"\1", text, flags=re.M)


def item(text):
    """An item of a list: an argument or several, which are its tag, or else a text with a dot."""
    found = re.match(r"((?:`[^`]*`(?:, )?)+): ", text)
    if found:
        return tagged(found[1], text[found.end() :])
    return f".IP \\(bu 2\n{filled(text)}"


def tagged(tag, text):
    """A text with a tag before it."""
    return f".TP\n{inline(tag)}\n{filled(text)}"


def paged():
    """The programs that have a page of their own."""
    return [program for program in programs.programs() if program.host is None]


def see_also(name):
    """The other pages."""
    others = [f".BR {other.page_name} (1)" for other in paged() if other.page_name != name]
    return " ,\n".join([*others, ".BR pendratsoa (3)"]) + "\n"


def synopsis(program):
    """How a program is used, in lines that a terminal has room for; an option stays with its value."""
    lines = []
    for line in (line for each in program.with_guests() for line in each.synopses()):
        named = line.partition(" [")[0]
        words = re.sub(r"(\[[^]]*) ([^]]*\])", "\\1\u00a0\\2", line)
        lines += textwrap.wrap(words, 72, subsequent_indent=" " * (len(named) + 1), break_on_hyphens=False)
    return "\n".join(lines).replace("\u00a0", " ")


def program_page(program):
    """The man page of a program: its arguments as they are described, and all else from its section of PROGRAMS.md."""
    text, heading = section(read("docs/PROGRAMS.md"), program.called)
    _, *rest = blocks(text)
    parts = {"DESCRIPTION": "", programs.heading(program): "", "EXIT STATUS": "", "EXAMPLES": ""}
    parts[programs.heading(program)] = "".join(tagged(tag, said) for tag, said in program.all_items())
    part = "DESCRIPTION"
    for kind, block in rest:
        if block.startswith("!["):
            continue
        if kind in BELONGING:
            # it belongs to the paragraph before it
            parts[part] += BELONGING[kind](block)
            continue
        part = "DESCRIPTION"
        if block.startswith("The status "):
            part = "EXIT STATUS"
        elif block.startswith("For example, "):
            part = "EXAMPLES"
        parts[part] += ".PP\n" + filled(block)
    for _, block in blocks(section(read("docs/PROGRAMS.md"), "All programs")[0]):
        if block.startswith("The status "):
            parts["EXIT STATUS"] += ".PP\n" + filled(block)
    # a subcommand's page says it
    is_whole = program.name != programs.JOURNAL
    terminal = prose(section(read("docs/PROGRAMS.md"), "On a terminal")[0]) if is_whole else ""
    return page(
        program.page_name,
        1,
        ("NAME", title(program.page_name, heading.removeprefix(": "))),
        ("SYNOPSIS", as_it_is(synopsis(program))),
        *parts.items(),
        ("ON A TERMINAL", terminal),
        ("SEE ALSO", see_also(program.page_name)),
    )


def cells(line):
    """The cells of a line of a table."""
    return [cell.strip() for cell in line.strip("|").split("|")]


def table(text):
    """A table's rows as items. The first cell is the tag, and of four the first two. The last cell has its heading
    before it if there are more than two, and in a table of three the second has too. A dash is left out."""
    found = ""
    head, _, *lines = text.split("\n")
    heads = cells(head)
    for line in lines:
        row = cells(line)
        tags = 2 if len(row) == 4 else 1
        said = [cell if at == tags and len(row) != 3 else f"{heads[at]}: {cell}" for at, cell in enumerate(row)][tags:]
        said = [cell for cell in said if not cell.endswith("–")]
        found += f".TP\n{inline(', '.join(row[:tags]))}\n{filled('. '.join(said))}"
    return found


def heading(text):
    """The heading of a part of a section."""
    return f".SS {inline(text)}\n"


def prose(text):
    """A section of a page of Markdown."""
    return "".join(BELONGING.get(kind, lambda block: ".PP\n" + filled(block))(block) for kind, block in blocks(text))


# How each kind of a block that is not a paragraph is made.
BELONGING = {"code": example, "item": item, "table": table, "heading": heading}


def as_code(words):
    """A paragraph of a comment, with the names of the library as code; what is in backquotes is code already."""
    parts = re.split(r"(`[^`]*`)", words)
    parts[::2] = (re.sub(r"\b(JOURNAL_[A-Z_]+|journal_[a-z_]+)\b", r"`\1`", part) for part in parts[::2])
    return "".join(parts)


class Declared(typing.NamedTuple):
    """What a header declares below a comment, whose paragraphs these are, and its heading before it."""

    heading: str
    paragraphs: list[str]
    code: str

    def function(self):
        """The name of the function that it declares, or None."""
        found = re.match(r"(?:static inline )?\w[\w ]*[ *](journal_\w*[a-z])\(", self.code)
        return found and found[1]

    def prototype(self):
        """The declaration of the function without its body, in one line."""
        return re.sub(r"\s+", " ", re.split(r" \{$|;$", self.code, maxsplit=1, flags=re.M)[0]) + ";"

    def said(self):
        """The paragraphs, with the names of the library as code."""
        return [as_code(words) for words in self.paragraphs]


@functools.lru_cache(maxsize=None)
def declared(path):
    """All that a header declares, in its order."""
    found, heading = [], ""
    text = read(path).partition('extern "C" {\n#endif\n')[2].partition("#ifdef __cplusplus")[0]
    for comment, code in re.findall(r"^/\*((?:.|\n)*?)\*/\n((?:(?!/\*).*\n)*)", text, re.M):
        said = re.split(r"\n\s*\n", re.sub(r"^ \* ?", "", comment, flags=re.M).strip())
        if code.strip():
            found.append(Declared(heading, [" ".join(words.split()) for words in said], code.strip("\n")))
        else:
            heading = re.split(r"\.(?:\s|$)", said[0], maxsplit=1)[0]
    return found


def functions():
    """What declares each function of the two headers that has a page, by its name, and the path of its header."""
    found = {each.function(): (path, each) for path in (HEADER, READER) for each in declared(path) if each.function()}
    if others := sorted(set(found) ^ set(TITLES)):
        raise Refused([f"TITLES of tools/generators/man_pages.py has no title, or too many: {' '.join(others)}"])
    return found


def prototyped(prototype):
    """A declaration in lines that a terminal has room for; a type stays with its name."""
    start, _, parameters = prototype.partition("(")
    parameters = ", ".join(parameter.replace(" ", "\u00a0") for parameter in parameters.split(", "))
    lines = textwrap.wrap(parameters, 71 - 4, break_long_words=False, break_on_hyphens=False)
    if len(start) + 1 + len(parameters) <= 71:
        return f"{start}({parameters}".replace("\u00a0", " ")
    return "\n".join([f"{start}(", *(f"    {line}" for line in lines)]).replace("\u00a0", " ")


def constants_of(structs, kinds):
    """The constants that belong to structs and to lists of kinds in proto/calls.json: one of each definition."""
    found = {entry["constant"] for entry in entries("struct") if entry["struct"] in structs}
    for entry in entries("kinds"):
        if entry["kinds"] in kinds:
            found.add(entry.get("prefix", "") + entry["values"][-1][0])
    return found


def types_of(function):
    """What the page of a function shows next to it: the structs in its declaration, and the constants of these."""
    structs = dict.fromkeys(re.findall(r"struct journal_(\w+)", function.prototype()))
    kinds = {kind for struct in structs for kind in (struct, *KINDS_OF.get(struct, ()))}
    kinds.update(KINDS_TAKEN.get(function.function().removeprefix("journal_"), ()))
    constants = constants_of(structs, kinds)
    for each in (*declared(HEADER), *declared(READER)):
        struct = re.match(r"struct journal_(\w+) \{", each.code)
        if struct and struct[1] in structs or constants & set(re.findall(r"^#define JOURNAL_(\w+)", each.code, re.M)):
            yield each


def shown(each):
    """Declarations as they are, and their comment."""
    return ".PP\n" + as_it_is(each.code) + "".join(".PP\n" + filled(words) for words in each.said())


def errors_of(call):
    """The errors of a call: their order, and what each of them says."""
    said = sentence_of_errors(call)
    if not said:
        return "None.\n"
    about = {error["name"]: error["comment"] for error in errors()}
    names = sorted(call.error_names(), key="OUT_OF_MEMORY".__eq__)
    return filled(as_code(said)) + "".join(tagged(f"`JOURNAL_{name}`", about[name]) for name in names)


def others_of(name, said):
    """The other pages of functions that a comment names, and that of the library."""
    named = sorted(set(re.findall(r"\bjournal_\w+", " ".join(said))) & set(TITLES) - {name})
    return " ,\n".join([*(f".BR {other} (3)" for other in named), ".BR pendratsoa (3)"]) + "\n"


def function_page(name, path, each):
    """The man page of a function: its comment is the description, and its errors are those of proto/calls.json."""
    call = next((call for call in described_calls() if call.symbol() == name), None)
    said = each.said()[: len(paragraphs(call.comment))] if call else each.said()
    included = f"#include <{path.removeprefix('include/')}>\n\n"
    return page(
        name,
        3,
        ("NAME", title(name, TITLES[name])),
        ("SYNOPSIS", as_it_is(included + prototyped(each.prototype()))),
        ("DESCRIPTION", "".join(".PP\n" + filled(words) for words in said)),
        ("ERRORS", errors_of(call) if call else ""),
        ("TYPES", "".join(shown(one) for one in types_of(each))),
        ("SEE ALSO", others_of(name, each.paragraphs)),
    )


def overview():
    """The functions that have a page, below the headings of their headers, each with its title."""
    found, heading = "The functions have pages of their own.\n", None
    for name, (_, each) in functions().items():
        if each.heading != heading:
            heading = each.heading
            found += f".SS {plain(heading or 'Errors')}\n"
        found += f".TP\n.BR {name} (3)\n{filled(TITLES[name])}"
    return found


def constants():
    """The constants that are on no page of a function, without the errors, which have a table."""
    elsewhere = {each.code for _, function in functions().values() for each in types_of(function)}
    names = {f"JOURNAL_{error['name']}" for error in errors()}
    rest = (each for each in declared(HEADER) if each.code.startswith("#define") and each.code not in elsewhere)
    return "".join(shown(each) for each in rest if each.code.split()[1] not in names)


def library_page():
    """The man page of the library, from docs/C.md and the header."""
    text = read("docs/C.md")
    about = " ".join(re.search(r"^# .*\n\n((?:.+\n)+)", text)[1].split()).partition(":")[0]
    build = section(text, "Build")[0]
    return page(
        "pendratsoa",
        3,
        ("NAME", title("pendratsoa", about)),
        ("SYNOPSIS", as_it_is(f"{INCLUDED}\n\ncc ... $(pkg-config --cflags --libs pendratsoa)")),
        ("DESCRIPTION", overview()),
        *((name, prose(section(text, heading)[0])) for heading, name in LIBRARY_SECTIONS),
        ("CONSTANTS", constants()),
        ("EXAMPLES", prose(build)),
        ("SEE ALSO", " ,\n".join(f".BR {program.page_name} (1)" for program in paged()) + "\n"),
    )


def files():
    found = {f"share/man/man1/{program.page_name}.1": program_page(program) for program in paged()}
    found["share/man/man3/pendratsoa.3"] = library_page()
    for name, (path, each) in functions().items():
        found[f"share/man/man3/{name}.3"] = function_page(name, path, each)
    return found
