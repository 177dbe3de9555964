#!/usr/bin/env python3
"""Links, paths, worked lines and the names in tables of promises exist; the README shows what is there.

Each link, anchor and path of this repository in `code`, the length of lines, the rows of tables, the form of
decisions, each worked line of conformance, the test vectors of each rule, the code and the dump that the README shows,
the table of compatibility, the checks on the page of the gate, each name in a table of promises, in the crates of its
section, and each `unsafe` block, which the page on what is proved names. A command on a page is run by a check, or is
known not to be. What is missing is shown before the last line.
"""
from __future__ import annotations

import collections
import collections.abc
import functools
import os
import pathlib
import posixpath
import re

import checks
import check
import crates

# What a function here yields: a page, what is missing of it, and whether that is there.
Found = collections.abc.Iterator[tuple[str, str, bool]]

WIDTH = 120

# The folders with which a path in code begins.
FOLDERS = (
    "bench", "conformance", "crates", "docs", "examples", "go", "include", "node", "proto", "python", "ruby", "rust",
    "scripts", "share", "tests", "tools", "view", "wasm",
)

# The folders of the packages.
LANGUAGES = ("python", "rust", "go", "ruby", "node")

# What a build leaves, which is not there before it.
BUILT = ("out", "target")

# The files of test vectors that are not random: each of their headings is named by a rule.
VECTORS = ("payloads", "merging", "levels", "hostile", "worked", "streams", "frames", "long")


def files(top: str, *endings: str) -> list[str]:
    """The paths of all files below a folder whose names end so, except what is built."""
    found = []
    for folder, folders, names in os.walk(top):
        folders[:] = [name for name in folders if name not in (*BUILT, ".git")]
        found += [posixpath.normpath(posixpath.join(folder, name)) for name in names if name.endswith(endings)]
    return sorted(found)


@functools.cache
def text(path: str) -> str:
    return pathlib.Path(path).read_text(encoding="utf-8")


@functools.cache
def lines(path: str) -> list[str]:
    return text(path).splitlines()


@functools.cache
def pages() -> list[str]:
    return files(".", ".md")


def fences(page: str) -> collections.abc.Iterator[tuple[str, str | None]]:
    """The lines of a page without its fences: each with what follows the marks of the fence that it is in, or None."""
    inside = None
    for line in lines(page):
        mark = re.match(r" *```(.*)", line)
        if mark:
            inside = mark[1] if inside is None else None
        else:
            yield line, inside


def links_and_paths() -> Found:
    """Links, and paths in code that begin with a folder of this repository."""
    path = re.compile(f"({'|'.join(FOLDERS)})/[A-Za-z0-9_./-]+")
    for page in pages():
        plain = [line for line, fence in fences(page) if fence is None]
        links = {target for line in plain for target in re.findall(r"\]\(([^)#: ]+)[)#]", line)}
        places = {code for code in text(page).split("`")[1::2] if path.fullmatch(code)}
        targets = [(target, posixpath.join(posixpath.dirname(page), target)) for target in links]
        for target, place in sorted(targets + [(place, place) for place in places]):
            if not any(f"/{folder}/" in target for folder in BUILT):
                yield page, f"there is no {target}", os.path.exists(place)


@functools.cache
def headings(page: str) -> list[str]:
    """The anchors of a page's headings, as GitHub names them."""
    found = [re.match(r"#+ (.*)", line) for line, fence in fences(page) if fence is None]
    return [re.sub(r"[^a-z0-9_ -]", "", heading[1].lower()).replace(" ", "-") for heading in found if heading]


def anchors() -> Found:
    """An anchor is a heading of its page."""
    for page in pages():
        found = {target for line in lines(page) for target in re.findall(r"\]\(([^):# ]*#[^) ]+)\)", line)}
        for target in sorted(found):
            name, _, anchor = target.partition("#")
            place = posixpath.normpath(posixpath.join(posixpath.dirname(page), name)) if name else page
            if place.endswith(".md"):
                yield page, f"there is no heading {target}", place in pages() and anchor in headings(place)


def long_lines() -> Found:
    """Lines have at most 120 characters, except rows of tables, pictures and code. Those that have are not counted."""
    for page in pages():
        is_fenced = was_code = False
        before = ""
        for number, line in enumerate(lines(page), 1):
            if re.match(" *```", line):
                is_fenced = not is_fenced
                before = ""
                continue
            was_code = is_fenced or line.startswith("    ") and (before == "" or was_code)
            before = line
            if len(line) > WIDTH and not was_code and not re.match(r" *\||!\[", line):
                yield page, f"line {number} has more than {WIDTH} characters", False


def tables() -> Found:
    """A row of a table is a line, with as many cells as the table's heading. Those that are so are not counted."""
    for page in pages():
        width = 0
        for line, fence in fences(page):
            is_row = fence is None and line.lstrip().startswith("|")
            bars = len(re.findall(r"(?<!\\)\|", line)) if is_row else 0
            if width and bars not in (0, width) or fence is None and "| |---" in line:
                yield page, f"a row that is not as its table's heading: {line.strip()}", False
            width = bars and (width or bars)


def decisions() -> Found:
    """Each section of the decisions is in the index, and each decision has a list of what was rejected."""
    page = "docs/DECISIONS.md"
    index, *sections = re.split("^## ", text(page), flags=re.MULTILINE)
    for section in sections:
        name, *entries = re.split("^### ", section, flags=re.MULTILINE)
        yield page, f"the index lacks {name.strip()}", f"[{name.strip()}](#" in " ".join(index.split())
        for entry in entries:
            title = entry.partition("\n")[0]
            yield page, f"{title}: no list is below 'Rejected:'", "\n\nRejected:\n\n- " in entry


def worked_lines() -> Found:
    """A worked line is one of conformance."""
    vectors = {line for path in files("conformance", ".txt") for line in lines(path)}
    for page in pages():
        if page == "conformance/README.md":
            continue
        for line in lines(page):
            worked = re.fullmatch("    ((payload|merge|frame|stream|record|compare|fields|json|read) .* = .*)", line)
            if worked:
                yield page, f"no line of conformance/: {worked[1]}", worked[1].strip() in vectors


def vector_headings(file: str) -> list[tuple[str, int]]:
    """The headings of a file of test vectors, each with the number of its lines."""
    found = []
    heading: list[str] = []
    count = 0
    for line in [*lines(f"conformance/{file}"), ""]:
        if count > 0 and (line == "" or line.startswith("#")):
            found.append((" ".join(heading), count))
        if line == "" or count > 0 and line.startswith("#"):
            heading, count = [], 0
        if line.startswith("#"):
            heading.append(line[2:])
        elif line != "":
            count += 1
    return found


def rules() -> Found:
    """The test vectors of each rule: `FILE, N: BEGINNING` in a page names the N lines of FILE under the one heading
    that begins so, and every heading of the files that are not random is named."""
    rule = re.compile(r"    ([a-z]*\.txt), ([0-9]*): (.*)")
    page = "conformance/README.md"
    found = [rule.fullmatch(line) for line in lines(page)]
    named = [(match[1], int(match[2]), match[3]) for match in found if match]
    seen: collections.Counter[tuple[str, int, str]] = collections.Counter()
    for file in (f"{name}.txt" for name in VECTORS):
        for heading, count in vector_headings(file):
            naming = [each for each in named if each[0] == file and heading.startswith(each[2])]
            seen.update(naming)
            for each in naming:
                if each[1] != count:
                    yield page, f"{each[1]} lines in {file} where there are {count}: {each[2]}", False
            if not naming:
                yield page, f"no rule names the lines in {file}: {heading}", False
    for each in named:
        yield page, f"{seen[each]} headings in {each[0]} begin: {each[2]}", seen[each] == 1


# What is quoted of code and of definitions: the words after a fence, and how the names of the files end.
QUOTED = {"rust": ".rt", "antt": ".antt"}


def quoted_code() -> Found:
    """What a page here or the page of a crate quotes of code and of definitions is there, line by line."""
    quoting = [*map(str, sorted(pathlib.Path("crates").glob("*/README.md"))), *files("docs", ".md")]
    for fence, ending in QUOTED.items():
        code = {line.lstrip(" ") for file in files("crates", ending) for line in lines(file)}
        for page in quoting:
            for line in (line.lstrip(" ") for line, inside in fences(page) if inside == fence):
                yield page, f"no such line of code: {line}", line in code


def shown_dump() -> Found:
    """The dump of the README is that which the program is checked against."""
    dump = "examples/streams/replay.dump"
    for line in lines("README.md"):
        if line.startswith('    {"offset":'):
            yield "README.md", f"no line of {dump}: {line.strip()}", line.removeprefix("    ") in lines(dump)


@functools.cache
def words_of(crate: str) -> set[str]:
    """The words of the code and the definitions of a crate; none of one that is not here."""
    folders = [f"crates/{crate}/{part}" for part in ("src", "specs")]
    return {word for folder in folders for file in files(folder, ".rt", ".antt")
            for word in re.findall(r"[A-Za-z_0-9]+", text(file))}


def promises(page: str) -> collections.abc.Iterator[tuple[str, list[str]]]:
    """The rows of tables below the headings that are crates: the crate, and the names in the last column, each the
    last part of a path without its arguments."""
    crate = ""
    for line in lines(page):
        if line.startswith("##"):
            name = re.sub("[:,].*", "", re.sub("^##+ ", "", line))
            crate = name if re.fullmatch("[a-z_]+", name) else ""
        if crate and line.startswith("| ") and line.count("|") >= 3:
            column = line.split("|")[-2]
            names = [re.sub("[<( ].*", "", code).rpartition("::")[2] for code in column.split("`")[1::2]]
            yield crate, [name for name in names if re.fullmatch("[A-Za-z_0-9]+", name)]


def promised_names() -> Found:
    """Each name in a table of promises is a word of the code or the definitions of the crate in the heading, of one
    that it depends on, or of one that the column names; or it is a crate."""
    below = crates.uses()
    page = "docs/PROOFS.md"
    for crate, names in promises(page):
        known = set().union(*map(words_of, [crate, *below.get(crate, []), *names]))
        for name in names:
            yield page, f"{name} is not in crates/{crate}", name in known or bool(words_of(name))


def front_names() -> Found:
    """Each name that the README says is proved is a word of some crate, and each code of its tables is on the page of
    its row."""
    known = set().union(*map(words_of, crates.uses()))
    section = text("README.md").partition("\n## What is proved\n")[2].partition("\n|")[0]
    for name in sorted({word for code in section.split("`")[1::2] for word in re.findall(r"\w+", code)}):
        yield "README.md", f"{name} is in no crate", name in known
    for row in re.findall(r"^\| .* \|$", text("README.md").partition("\n## Use it\n")[2].partition("\n## ")[0], re.M):
        pages_of_row = "".join(text(path) for path in re.findall(r"\]\(([^)]+)\)", row))
        for code in row.split("`")[1::2]:
            yield "README.md", f"its page has no {code}", code in pages_of_row


# The row of the table of compatibility, the file that tells what is needed, and where.
NEEDED = (
    ("Python", "python/pyproject.toml", r'^requires-python = ">=([\d.]+)"'),
    ("Go", "go/go.mod", r"^go ([\d.]+)"),
    ("Ruby", "ruby/pendratsoa.gemspec", r'required_ruby_version = ">= ([\d.]+)"'),
    ("Rust", "rust/Cargo.toml", r'^rust-version = "([\d.]+)"'),
    ("Node", "node/package.json", r'"node": ">=([\d.]+)"'),
)
COMPATIBILITY = "docs/COMPATIBILITY.md"


def compatibility() -> Found:
    """The table of compatibility has the versions that the packages and the check of a release have, and the pages of
    those who install lead to it."""
    rows = {line.split("|")[1].strip(): line for line in lines(COMPATIBILITY) if line.startswith("| ")}
    for name, file, pattern in NEEDED:
        needed = re.search(pattern, text(file), re.MULTILINE)
        wanted = f"| {name} | {needed[1]} or later" if needed else "its row"
        yield COMPATIBILITY, f"{file} has another version than {wanted}", wanted in rows.get(name, "")
    for what, name in (("the library", "LIBRARY_GLIBC"), ("the programs", "PROGRAMS_GLIBC")):
        found = re.search(rf"^{name} = \((\d+), (\d+)\)", text("scripts/checks/release.py"), re.MULTILINE)
        wanted = f"{found[1]}.{found[2]} or later for {what}" if found else name
        for page in (COMPATIBILITY, "README.md"):
            yield page, f"it lacks {wanted}", wanted in " ".join(text(page).split())
    for page in ("README.md", "docs/C.md", *(f"{language}/README.md" for language in LANGUAGES)):
        yield page, "no link leads to the table of compatibility", "COMPATIBILITY.md)" in text(page)


def stages() -> Found:
    """The page on the gate has each check in a row, and nothing else."""
    page = "docs/GATE.md"
    names = {*check.ALL, *check.BEFORE_RELEASE}
    section = text(page).partition("\n## The stages\n")[2].partition("\n## ")[0]
    firsts = re.findall(r"^\| (`\w+`(?:, `\w+`)*) \|", section, re.MULTILINE)
    rows = {name for first in firsts for name in re.findall(r"\w+", first)}
    for name in sorted(names | rows):
        yield page, f"{name} is a check without a row, or a row without a check", name in names & rows


# What a line of code on a page begins with, if it is a command.
COMMAND = re.compile(
    r"(?:sh|tar|make|cc|npm|gem|cargo|go|python3|tshark|ln|mkdir|cp|grep|echo|git|curl|sudo|journal|journal_list) "
)

# Commands without a prompt, each with the check that runs it, or why none does. The check `shown` runs those with one.
NOT_SHOWN = (
    (r".*(\[|\b[A-Z]{4,}\b|\bOUT\b|\bPATH/)", "what is in capitals or brackets is for others to fill in"),
    (r"journal dump --type .* > parameter$", "dump"),
    (r"tshark ", "wireshark"),
    (r"cc frame\.c ", "c"),
    (r"(tar -xf|sh|npm install|gem install --local --no-document) (\./)?pendratsoa-", "release"),
    (r"(cargo add --path|go mod edit -require) pendratsoa", "release"),
    (r"(make|npm install|gem install --local) (\./)?(python|node|ruby)", "the check of the package, in a copy"),
    (r"sh scripts/install\.sh --library /usr/local ", "install, below another folder"),
    (r"python3 -m venv venv", "python installs the wheel below a folder"),
    (r"sh install\.sh( --uninstall)? ", "files"),
    (r"python3 scripts/wasm\.py ", "wasm"),
    (r"sh (scripts/check\.sh|scripts/checks/\w+\.sh|bench/install\.sh)", "a check itself, or what it needs"),
    (r"(echo 0\.2\.0 > VERSION|python3 tools/generate\.py)$", "it changes the repository"),
    (r"mkdir -p ~/", "it changes the home folder"),
    (r"mkdir crates$|echo 'my_program: ", "for a repository of one's own"),
)


def commands() -> Found:
    """A command on a page has a prompt, and is run by the check `shown`, or is known not to be."""
    for page in pages():
        fence: str | None = None
        for number, line in enumerate(lines(page), 1):
            mark = re.match(r" *```(.*)", line)
            if mark:
                fence = mark[1] if fence is None else None
            elif (fence is None and line.startswith("    ") or fence == "sh") and COMMAND.match(line.strip()):
                words = line.strip()
                # what a program prints is not a command, nor is a line of a picture
                if not re.match(r"\w+ make: |\w+: |journal +\w+[,/]|journal  ", words):
                    known = any(re.match(pattern, words) for pattern, _ in NOT_SHOWN)
                    yield page, f"line {number} is a command that no check runs: {words}", known


def unsafe_blocks() -> Found:
    """The page on what is proved names the function of each `unsafe` block."""
    page = "docs/PROOFS.md"
    said = next(part for part in text(page).split("\n\n") if "`unsafe` blocks" in part)
    for file in files("crates", ".rt"):
        for block in re.finditer(r"\bunsafe \{", text(file)):
            name = re.findall(r"\bfn (\w+)", text(file)[:block.start()])[-1]
            yield page, f"{name} of {file} has an unsafe block", f"`{name}`" in said


PARTS = (
    links_and_paths, anchors, long_lines, tables, decisions, worked_lines, rules, quoted_code, shown_dump,
    promised_names, front_names, compatibility, stages, commands, unsafe_blocks,
)


# Those that count only what is wrong.
COMPLAINING = (long_lines, tables)


def main(check: checks.Check) -> None:
    for part in PARTS:
        found = list(part())
        check.case(f"{part.__name__} finds something", bool(found) or part in COMPLAINING)
        for page, complaint, is_there in found:
            check.case(f"{page}: {complaint}", is_there)


if __name__ == "__main__":
    checks.perform(main)
