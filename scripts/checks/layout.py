#!/usr/bin/env python3
"""The layout of `rt fmt`, lines of at most 120 characters, mutants whose old texts occur once, and which were tried.

The gate proves nothing of a crate with a file in another layout, and a mutant whose text has moved shows nothing; both
are seen here within seconds. And shell that removes its files at its end does so by a signal too.
"""
from __future__ import annotations

import os
import pathlib
import re
import shutil

import checks
import mutants as trying
from generators import rattle

WIDTH = 120

# The folders of what is built.
BUILT = ("out", "target", "build", "node_modules")

# What stays on one line of a crate: an import of one path, an attribute, a text.
IS_KEPT = re.compile(r' *((ghost )?use \S+?(\{[^,]*\})?( as \w+)?;?$|#\[)|.*"')

# An import of several laws, which a generator writes on one line.
IS_MADE = re.compile(r" *ghost use ")

# The sources that no formatter lays out, except those that say in their first line that they are generated.
HAND_WRITTEN = (
    "scripts", "tools", "bench", "view", "python", "go", "ruby", "rust", "node", "examples", "tests", "wasm",
)
ENDINGS = (".sh", ".py", ".c", ".h", ".rs", ".go", ".rb", ".gemspec", ".js", ".mjs", ".ts", ".html", ".css")


def files(*folders: str, endings: tuple[str, ...]) -> list[pathlib.Path]:
    """The files below these folders whose names end so, except what is built."""
    found = []
    for top in folders:
        for folder, names_of_folders, names in os.walk(top):
            names_of_folders[:] = [name for name in names_of_folders if name not in BUILT]
            found += [pathlib.Path(folder, name) for name in names if name.endswith(endings)]
    return sorted(found)


def layout(check: checks.Check) -> None:
    """Sources are in the layout of `rt fmt`, also the tests, whose names end with `.rt.in`."""
    if not check.has("rt", "the layout"):
        return
    words = [rattle(), "fmt", "--check"]
    check.command("the layout of crates/", [*words, *files("crates", endings=(".rt", ".antt"))])
    # the formatter takes only .rt files
    copies = []
    for file in files("tests", endings=(".rt.in",)):
        copies.append(check.work / file.with_suffix(""))
        copies[-1].parent.mkdir(parents=True, exist_ok=True)
        shutil.copyfile(file, copies[-1])
    check.command("the layout of tests/", [*words, *copies])


def too_long(file: pathlib.Path, is_kept: re.Pattern[str] | None) -> list[str]:
    """The lines of a file that are too long, each with its place, except those that are kept."""
    lines = enumerate(file.read_text(encoding="utf-8").splitlines(), 1)
    return [
        f"\n{file}:{number}:{line}"
        for number, line in lines
        if len(line) > WIDTH and not (is_kept and is_kept.match(line))
    ]


def is_generated(file: pathlib.Path) -> bool:
    with file.open(encoding="utf-8") as opened:
        return "@generated" in opened.readline()


def long_lines(check: checks.Check) -> None:
    """Lines of code, definitions and proofs have at most 120 characters, except what stays on one line."""
    found = []
    for file in files("crates", "tests", "examples", endings=(".rt", ".rt.in", ".antt")):
        for place in too_long(file, IS_KEPT):
            if not (is_generated(file) and IS_MADE.match(place.split(":", 2)[2])):
                found.append(place)
    for file in files(*HAND_WRITTEN, endings=ENDINGS):
        if not is_generated(file):
            found += too_long(file, None)
    check.case(f"lines of at most {WIDTH} characters", not found, "".join(found[:checks.LINES]))


# A signal that is not trapped leaves what shell removes at its end.
AT_END, BY_SIGNAL = " EXIT\n", "trap 'exit 143' HUP INT TERM\n"


def traps(check: checks.Check) -> None:
    """Shell that removes files at its end does so when a signal ends it, as those do that take the checks' lib.sh."""
    texts = {path: path.read_text(encoding="utf-8") for path in files("scripts", "bench", "node", endings=(".sh",))}
    removing = {path: text for path, text in texts.items() if AT_END in text}
    lacking = [
        str(path)
        for path, text in removing.items()
        if ". scripts/checks/lib.sh\n" not in text and text.count(AT_END) > text.count(BY_SIGNAL)
    ]
    check.case("shell removes its files by a signal too", bool(removing) and not lacking, " ".join(lacking))


def complaint(edit: pathlib.Path) -> str | None:
    """Why a mutant cannot be applied. Each old text is replaced before the next one, as the prover's tool does it."""
    crate = edit.parent.parent
    file, text, old = crate, "", ""
    has_change = False
    for line in edit.read_text(encoding="utf-8").splitlines():
        if line.startswith("file: "):
            file = crate / line.removeprefix("file: ")
            if not file.is_file():
                return f"there is no {file}"
            text = file.read_text(encoding="utf-8")
        elif line.startswith("old: ") and not old:
            old = line.removeprefix("old: ")
            if old not in text:
                return f"not in {file}: {old}"
            if text.find(old, text.index(old) + 1) >= 0:
                return f"more than once in {file}: {old}"
        elif line.startswith("new:") and old:
            new = line.removeprefix("new:").removeprefix(" ")
            if new == old:
                return f"nothing is changed in {file}: {old}"
            text = text.replace(old, new, 1)
            old, has_change = "", True
        else:
            return f"a line of no form, or in no order: {line}"
    return None if has_change and not old else "no change, or one without a new text"


def mutants(check: checks.Check) -> None:
    """Each mutant can be applied."""
    for edit in files("crates", endings=(".edit",)):
        why = complaint(edit)
        check.case(str(edit), why is None, why)


def tried_mutants(check: checks.Check) -> None:
    """Which mutants were tried is written as it should be, of those that are there."""
    text = trying.TRIED.read_text(encoding="utf-8")
    check.same(f"{trying.TRIED}, as written anew", trying.with_tried(text, [], "", "", trying.is_mutant), text)
    for line in text.removeprefix(trying.COMMENT).splitlines():
        check.case(f"{trying.TRIED}: {line}", bool(re.fullmatch("[a-z_]+/[a-z0-9_]+ [0-9a-f]{7,} 20[0-9-]{8}", line)))

    # after a run with each kind of line
    before = f"{trying.COMMENT}a/gone 1111111 2020-01-01\na/let 1111111 2020-01-01\na/not 1111111 2020-01-01\n"
    verdicts = [
        "refused b/new: error: f", "    refused a/deeper: a line that goes on", "let through a/let: f",
        "not tried a/not", "cannot be applied a/bad: why", "says little a/little", "refused a/old",
    ]
    after = "a/not 1111111 2020-01-01\na/old 2222222 2020-02-02\nb/new 2222222 2020-02-02\n"
    found = trying.with_tried(before, verdicts, "2222222", "2020-02-02", lambda name: name != "a/gone")
    check.same("which mutants were tried, after a run", trying.COMMENT + after, found)


def main(check: checks.Check) -> None:
    layout(check)
    long_lines(check)
    traps(check)
    mutants(check)
    tried_mutants(check)


if __name__ == "__main__":
    checks.perform(main)
