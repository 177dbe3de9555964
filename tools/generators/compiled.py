"""What the compiled modules for Python and Ruby share, which is C: the functions of the library, and its calls by their
parameters. `calls` writes it, a copy for each module, since each is packed by itself.
"""
import pathlib
import textwrap

from .calls_data import calls, structs

PATHS = ("python/src/calls.h", "ruby/ext/pendratsoa/calls.h")

# The names of slices that are the second of two, and of those that are the third; all others are the first.
PLACES = {"second": "second", "replayed": "second", "renames": "second", "stream": "third"}

# The structs of the tables that the modules read and write themselves, within streams and records.
OWN_TABLES = ("item", "field")

TEMPLATE = pathlib.Path(__file__).with_name("compiled.h.in")


def is_by_name(call):
    """Whether the modules make a call by its name, and not within what reads streams and records."""
    has_own = call.entries in OWN_TABLES or call.table in OWN_TABLES
    return not (has_own or (call.numbers and not (call.writes or call.given)))


def by_name():
    return [call for call in calls() if is_by_name(call)]


def name_of(call, language):
    """The name of a call in a module. What makes those with a table has names of its own."""
    return call.call if call.entries or call.table else call.name_in(language)


def parameters(call):
    """What a call takes of its caller, in order."""
    table = ["table"] if call.entries else []
    return [*call.takes, *table, *call.reads, *(name for name in (call.flag, call.given) if name)]


def first_room(call):
    """The room for what a call writes that is tried first: a multiple of the bytes that it reads, and more; of a table
    it is a count of entries."""
    if call.table:
        return (0, 256)
    return call.room if call.writes is True else (0, call.writes or 0)


def unit(call):
    """How many bytes each has of what a call writes and counts: a byte, or an entry of a table; 0 if it writes none."""
    return 8 * len(structs()[call.table]["fields"]) if call.table else int(bool(call.writes))


def entry(call):
    """How many bytes an entry has of the table that a call reads; 0 if it reads none."""
    return 8 * len(structs()[call.entries]["fields"]) if call.entries else 0


def count(struct):
    """How many numbers a struct has, or 0 without one."""
    return f"JOURNAL_{structs()[struct]['constant']}" if struct else "0"


def most(names):
    """The most numbers that one of these structs has."""
    return str(max(len(structs()[name]["fields"]) for name in names if name))


def made(call):
    """The function that makes a call."""
    given = [f"arguments->{name}" for name in call.takes]
    given += ["(const\u00a0void\u00a0*)arguments->table.bytes",
              f"arguments->table.length\u00a0/\u00a0sizeof(struct\u00a0journal_{call.entries})"] if call.entries else []
    for name in call.reads:
        place = PLACES.get(name, "first")
        given += [f"arguments->{place}.bytes", f"arguments->{place}.length"]
    given += [f"arguments->{call.flag}"] if call.flag else []
    given += ["(void\u00a0*)arguments->given", count(call.given)] if call.given else []
    given += ["(void\u00a0*)arguments->numbers", count(call.numbers)] if call.numbers else []
    given += ["arguments->out", "arguments->room"] if call.writes else []
    given += ["(void\u00a0*)arguments->out", "arguments->room"] if call.table else []
    start = f"    return library->{call.call}("
    line = textwrap.fill(", ".join(given), 120, initial_indent=start, subsequent_indent=" " * len(start),
                         break_long_words=False, break_on_hyphens=False)
    return (
        f"static int64_t make_{call.call}(const struct library *library, struct arguments *arguments)\n{{\n"
        + line.replace("\u00a0", " ")
        + ");\n}\n\n"
    )


def row(call):
    """A call in the list."""
    taken = ", ".join(name.upper() for name in parameters(call)) or "NO_PARAMETER"
    changes = "true" if call.changes else "false"
    words = [count(call.given), changes, count(call.numbers), str(unit(call)), *map(str, first_room(call))]
    start = f"    {{make_{call.call}, {{{taken}}}, "
    return textwrap.fill(", ".join(words), 120, initial_indent=start, subsequent_indent="     ",
                         break_long_words=False, break_on_hyphens=False) + "},"


def module():
    """The header of both modules."""
    taken = []
    for call in by_name():
        taken += [name for name in parameters(call) if name not in taken]
    slices = [name for call in by_name() for name in call.reads]
    cases = {
        f"{place.upper()}S": [name for name in taken if name in slices and PLACES.get(name, "first") == place]
        for place in ("first", "second", "third")
    }
    parts = {
        "PARAMETERS": ",\n".join(f"    {name.upper()}" for name in taken),
        "MOST_PARAMETERS": str(1 + max(len(parameters(call)) for call in by_name())),
        "MOST_GIVEN": most(call.given for call in by_name()),
        "MOST_NUMBERS": most(call.numbers for call in by_name()),
        "FUNCTIONS": "\n".join(f"    __typeof__({call.symbol()}) *{call.call};" for call in calls()),
        "COUNT": str(len(calls())),
        "POINTS": "\n".join(
            f"    case {place}:\n        library->{name} = (__typeof__(library->{name}))address;\n        break;"
            for place, name in enumerate(call.call for call in calls())
        ),
        "CALLS": "".join(map(made, by_name())).rstrip("\n") + "\n",
        "ROWS": "\n".join(map(row, by_name())),
        **{name: "\n".join(f"        case {one.upper()}:" for one in found) for name, found in cases.items()},
    }
    text = TEMPLATE.read_text(encoding="utf-8")
    for name, part in parts.items():
        text = text.replace(f"@{name}@", part)
    return text


def files():
    return {path: module() for path in PATHS}
