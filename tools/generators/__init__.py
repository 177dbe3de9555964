"""What the generators share.

A generator is a module of this package with a line on what it makes (ABOUT), where that comes from (SOURCE, and in
SOURCES by its path for a file that comes from more), and two functions: missing(), which tells what has to be there and
is not, or None, and files(), the text or the bytes of each file by its path from the root, without the first line that
says who made it. What cannot be known of the paths without the tools is said by paths().
"""
import pathlib
import re
import shutil
import subprocess
import tempfile

ROOT = pathlib.Path(__file__).resolve().parents[2]



class Refused(SystemExit):
    """What is wrong with what is read, one per line. A program that does not catch it ends, and shows these lines."""

    def __init__(self, problems):
        super().__init__("\n".join(f"generate.py: {problem}" for problem in problems))
        self.problems = problems


# The generators, each a module of the package, in the order in which they take from each other.
NAMES = (
    "description",
    "message_types",
    "tables",
    "row_table",
    "lists",
    "bindings",
    "typed_messages",
    "calls",
    "wasm",
    "records",
    "borrowed",
    "frames",
    "numbered",
    "dispatch",
    "commands",
    "erasures",
    "json_names",
    "message_names",
    "enum_names",
    "comparisons",
    "record_vectors",
    "field_vectors",
    "numbering_vectors",
    "long_vectors",
    "json_readings",
    "random_vectors",
    "dumps",
    "peer",
    "rust",
    "page_fields",
    "programs",
    "pages",
    "call_pages",
    "man_pages",
    "completions",
    "versions",
    "wireshark",
    "attributes",
)


def missing():
    """Nothing has to be there but Python."""
    return None


def missing_rt():
    """The missing() of a generator whose files are laid out."""
    return None if shutil.which("rt") else "there is no rt, which lays the files out"


def rattle():
    """The program that lays files out. `rt fmt` formats a whole crate; what it calls lies in the folder of `rt doc`."""
    page = subprocess.run(["rt", "doc"], check=True, capture_output=True, text=True).stdout.strip()
    return pathlib.Path(page).parent / "bin" / "rattle"


WIDTH = 120


def broken_import(line):
    """A long list of ghost imports in several lines; a path that is too long by itself stays as it is."""
    listed = re.fullmatch(r"( *ghost use [\w.]+\.\{)(.*)\};", line)
    if not listed:
        return [line]
    start, names = listed[1], listed[2].split(", ")
    for count in range(2, len(names) + 1):
        # the names shared out evenly over this number of lines
        rows = [names[len(names) * i // count:len(names) * (i + 1) // count] for i in range(count)]
        broken = [f"{start}{', '.join(row)}}};" for row in rows]
        if all(len(part) <= WIDTH for part in broken):
            return broken
    return [line]


def broken_clause(line):
    """A long line of a clause in several, each of which begins where the brackets are least deep, at an operator."""
    lines = []
    indent = len(line) - len(line.lstrip())
    further = indent + (0 if line.lstrip()[0] in "×→≡↔(" else 4)
    while len(line) > WIDTH:
        depth, best = 0, None
        for at, char in enumerate(line[:WIDTH + 1]):
            depth += (char in "([{") - (char in ")]}")
            if char != " " or at < indent + 40 or line[at + 1] == "}":
                continue
            after = line[at + 1]
            rank = 0 if after in "|→×≡↔+∷" else 1 if after == "(" else 2
            score = (depth - 2 * (after in "|→") - (after == "×"), rank, -at)
            if best is None or score < best[0]:
                best = score, at
        if best is None:
            break
        at = best[1]
        lines.append(line[:at])
        line = " " * further + line[at + 1:]
        indent = further
    return [*lines, line]


def shortened(text):
    """Rattle whose lines of imports and clauses have at most 120 characters; `rt fmt` leaves both as they are."""
    lines = []
    for line in text.split("\n"):
        if len(line) <= WIDTH or '"' in line or line.lstrip().startswith(("//", "#")):
            lines.append(line)
        elif "ghost use" in line:
            lines += broken_import(line)
        else:
            lines += broken_clause(line)
    return "\n".join(lines)


def bracketed(elements):
    """A list in brackets, an element of a list of a definition: in a line or, if it is too long, in several."""
    words = [*(f"{element} ∷" for element in elements), "[]"]
    line = " ".join(words)
    if len(f"    ∷ ({line})") <= WIDTH:
        return f"({line})"
    rows = [""]
    for word in words:
        if rows[-1] and len(f"      {rows[-1]} {word}") > WIDTH:
            rows.append("")
        rows[-1] = f"{rows[-1]} {word}".lstrip()
    lines = []
    for row in rows:
        # an element that is a list itself may be too long for a line
        while len(f"    {row}") > WIDTH:
            cut = row.rindex(" ∷ ", 0, WIDTH - 6) + 2
            lines.append(f"      {row[:cut]}")
            row = f"  {row[cut:].lstrip()}"
        lines.append(f"      {row}")
    return "(\n" + "".join(f"{line}\n" for line in lines) + "    )"


def laid_out(texts):
    """Files in the layout of `rt fmt`, by their paths. It takes only files whose names end with `.rt`, and one at
    least."""
    if not texts:
        return {}
    with tempfile.TemporaryDirectory() as work:
        places = {path: pathlib.Path(work) / path.removesuffix(".in") for path in texts}
        for path, place in places.items():
            place.parent.mkdir(parents=True, exist_ok=True)
            place.write_text(texts[path])
        format_command = [rattle(), "fmt", "--write", *places.values()]
        subprocess.run(format_command, check=True)
        for place in places.values():
            if place.suffix == ".rt":
                place.write_text(shortened(place.read_text()))
        subprocess.run(format_command, check=True)
        return {path: place.read_text() for path, place in places.items()}
