#!/usr/bin/env python3
"""scripts/mutants.sh [--above] [--changed] [--singly] [CRATE | CRATE/NAME ..]

Tries mutants: edits of crates/CRATE/mutants/ and crates/CRATE/must-fail/ that plant a bug, each of which the prover
has to reject: those of the crates that are named, with --above also of all crates that use them, or only these mutants;
with no name, of all crates. The gate tries only must-fail/, since a mutant takes seconds to a minute. With --changed
those are left out that docs/mutants.tried has, and for which nothing is another than at that commit: the mutant, its
crate, and all crates below it.

It works on a copy of crates/ in a temporary folder (below TMPDIR, or /tmp), so nothing in crates/ changes and other
checks can run meanwhile. What rt ci has proved on this machine is not proved again; what is not proved yet of a crate
and of those below it is first. Several crates are tried at once, each in up to 4 GB of memory.

Mutants of different functions of a crate are tried in one check (scripts/together.py). What that does not decide, and
with --singly all, is tried by rt ci, with the mutants as its edits that must fail. A line for each mutant:

  refused CRATE/NAME: the first error that the prover gave, which should name the function that the mutant changes
  kept CRATE/NAME: left out, with the commit over which it was refused
  let through CRATE/NAME: the crate is still proved, so a contract promises too little
  cannot be applied CRATE/NAME: why; an old text is not in its file exactly once, or the edited text does not compile,
                                so no contract was tried
  says little CRATE/NAME: refused only since a proof file names what the edit took away
  not tried CRATE/NAME: the prover ended before it

The last line is 'N passed, M failed', where the refused and the kept ones have passed. The status is 0 where none
failed, 2 for a wrong argument, else 1. If crates/ is as the last commit has it, docs/mutants.tried says afterwards that
those which were refused were tried over that commit, also of a run that was ended.
"""
from __future__ import annotations

import argparse
import collections.abc
import concurrent.futures
import datetime
import os
import pathlib
import re
import shutil
import signal
import subprocess
import sys
import tempfile
import typing

import crates
import linked
import together

# The folders of a crate that have mutants.
FOLDERS = ("must-fail", "mutants")

# What rt says of a mutant, and what is said here; the first that fits. With the first one a proof file named what the
# edit took away, or the prover came to a limit.
VERDICTS = (
    ("refused, as it must be (", "says little"),
    ("refused, as it must be: ", "refused"),
    ("refused, as it must be", "refused"),
    ("NOT REFUSED: ", "let through"),
    ("NOT TRIED: ", "not tried"),
    ("BAD EDIT: ", "cannot be applied"),
    ("", "cannot be applied"),
)

# The last lines of a log that is shown, and how much of what the prover says of a mutant.
LOG_LINES = 20
WIDTH = 160

# What a check takes at most, in bytes.
MEMORY = 4 << 30

# Which mutants were refused over which commit, and when: after a comment one line per mutant, sorted.
TRIED = pathlib.Path("docs/mutants.tried")
COMMENT = "# CRATE/MUTANT COMMIT DATE: each was refused over this commit. scripts/mutants.sh writes it.\n"

# What a mutant is tried over.
SOURCES = ("crates", "crates.txt", "HANDLES")

# The files of mutants, by their crates.
Mutants = dict[str, list[pathlib.Path]]


class Stop(Exception):
    """Why nothing more is tried: a line for the standard error, and the status."""

    def __init__(self, why: str, status: int):
        super().__init__(why)
        self.status = status


class Parser(argparse.ArgumentParser):
    def error(self, message: str) -> typing.NoReturn:
        raise Stop(message, 2)


def parse_arguments(words: list[str]) -> argparse.Namespace:
    """The parsed command line, whose crates are there."""
    parser = Parser(prog="mutants.sh", add_help=False, allow_abbrev=False)
    parser.add_argument("--help", action="store_true")
    parser.add_argument("--above", action="store_true")
    parser.add_argument("--changed", action="store_true")
    parser.add_argument("--singly", action="store_true")
    parser.add_argument("words", nargs="*")
    arguments = parser.parse_args(words)
    for word in arguments.words:
        crate, _, name = word.partition("/")
        if not os.path.isdir(f"crates/{crate}"):
            raise Stop(f"no such crate: {crate}", 2)
        if arguments.above and name:
            raise Stop("--above goes with crates, not with a mutant", 2)
    return arguments


def has_mutants(crate: str) -> bool:
    return any(os.path.isdir(f"crates/{crate}/{folder}") for folder in FOLDERS)


def told(names: list[str], log: str) -> list[str]:
    """What rt says of these mutants, CRATE/NAME, as lines of this script."""
    verdicts, said = [], []
    seen = set()
    goes_on = False
    for line in log.splitlines():
        verdict = re.match(r"rt: must-fail ([^ ]*)\.edit: (.*)", line)
        if not verdict:
            said.append(f"    {line}")
            if goes_on:
                verdicts.append(f"    {line}")
            continue
        name, text = verdict.groups()
        seen.add(name)
        words, how = next(pair for pair in VERDICTS if text.startswith(pair[0]))
        why = text.removeprefix(words)
        verdicts.append(f"{how} {name}{': ' if why else ''}{why}")
        goes_on = how in ("cannot be applied", "not tried")
    missing = [f"not tried {name}" for name in names if name not in seen]
    return [*verdicts, *missing, *(said[-LOG_LINES:] if missing else [])]


def copy_crates(tree: pathlib.Path, names: collections.abc.Iterable[str]) -> None:
    """Copies these crates, and what they depend on, without their mutants."""
    tree.mkdir()
    shutil.copy2("HANDLES", tree)
    copied, lines = crates.with_below(names), crates.lines()
    (tree / "crates.txt").write_text("".join(f"{lines[name]}\n" for name in copied))
    for name in copied:
        crate = pathlib.Path("crates", name)
        shutil.copytree(crate, tree / crate, ignore=shutil.ignore_patterns("out", *FOLDERS))


def mutant_files(crate: str, name: str) -> list[pathlib.Path]:
    """The files of mutants of a crate; the name may be '*'."""
    found = [file for folder in FOLDERS for file in pathlib.Path("crates", crate, folder).glob(f"{name}.edit")]
    if not found:
        raise Stop(f"no such mutant: {crate}/{name}", 2)
    if len({file.name for file in found}) != len(found):
        raise Stop(f"two mutants of {crate} have one name, in {' and '.join(FOLDERS)}", 1)
    return sorted(found, key=lambda file: file.stem)


class Trial:
    """Mutants that are tried in a temporary folder, and the commands that run for them."""

    def __init__(self, room: pathlib.Path):
        self.room = room
        self.tree = room / "tree"
        self.running: set[subprocess.Popen[str]] = set()
        self.is_ended = False

    def run(self, words: collections.abc.Sequence[str | pathlib.Path], folder: pathlib.Path) -> str:
        """What a command prints."""
        if self.is_ended:
            return ""
        process = subprocess.Popen(
            words,
            cwd=folder,
            env={**os.environ, "TMPDIR": str(self.room)},
            stdin=subprocess.DEVNULL,
            stdout=subprocess.PIPE,
            stderr=subprocess.STDOUT,
            text=True,
            errors="replace",
        )
        self.running.add(process)
        try:
            return process.communicate()[0]
        finally:
            self.running.discard(process)
            process.terminate()
            process.wait()

    def end(self) -> None:
        """Ends what runs; nothing more begins."""
        self.is_ended = True
        for process in list(self.running):
            process.terminate()

    def prove(self, names: list[str]) -> None:
        """Proves these crates and those below them, in a copy, unless rt ci has proved them on this machine."""
        copy_crates(self.tree, names)
        log = self.run(["rt", "ci"], self.tree)
        if not re.fullmatch(r"\d+ passed, 0 failed", log.splitlines()[-1] if log else ""):
            raise Stop("the crates are not proved:\n" + "\n".join(log.splitlines()[-LOG_LINES:]), 1)

    def try_together(self, crate: str, files: list[pathlib.Path]) -> list[str]:
        """Tries mutants of a crate in few checks, and returns the lines of those that are refused."""
        kit = linked.toolchain()
        with tempfile.TemporaryDirectory(dir=self.room, ignore_cleanup_errors=True) as room:
            folder = pathlib.Path(room, crate)
            shutil.copytree(self.tree / "crates" / crate, folder, ignore=shutil.ignore_patterns("out"))
            words = [str(kit / "bin/rattle"), "check", *crates.read_over_libraries(crate, self.tree, kit)]
            words += ["--incremental", pathlib.Path(room, "kept")]
            refused = together.try_together(folder, files, lambda asked: self.run([*words, *asked], folder))
        return [f"refused {crate}/{name}: {why[:WIDTH]}" for name, why in refused.items()]

    def try_singly(self, mutants: Mutants) -> list[str]:
        """Tries each mutant of these crates in a check of its own, by rt ci, and returns the lines."""
        for crate, files in mutants.items():
            (self.tree / "crates" / crate / FOLDERS[0]).mkdir()
            for file in files:
                shutil.copy2(file, self.tree / "crates" / crate / FOLDERS[0])
        names = [f"{crate}/{file.stem}" for crate, files in mutants.items() for file in files]
        return told(names, self.run(["rt", "ci", *mutants], self.tree))


def is_mutant(name: str) -> bool:
    """Whether there is a mutant CRATE/NAME."""
    crate, _, stem = name.partition("/")
    return any(os.path.exists(f"crates/{crate}/{folder}/{stem}.edit") for folder in FOLDERS)


def with_tried(
    text: str, verdicts: list[str], commit: str, date: str, is_there: collections.abc.Callable[[str], bool]
) -> str:
    """The text of TRIED after a run with these lines: what was refused was tried over this commit. It says nothing of
    what was tried and not refused, and of mutants that are not there any more."""
    tried = {line.split()[0]: line for line in text.splitlines() if line and not line.startswith("#")}
    for line in verdicts:
        verdict = re.match(f"({'|'.join({how for _, how in VERDICTS})}) ([a-z0-9_]+/[a-z0-9_]+)(:|$)", line)
        if verdict and verdict[1] == "refused":
            tried[verdict[2]] = f"{verdict[2]} {commit} {date}"
        elif verdict and verdict[1] != "not tried":
            tried.pop(verdict[2], None)
    return COMMENT + "".join(f"{tried[name]}\n" for name in sorted(tried) if is_there(name))


def git(*words: str) -> str | None:
    """What git prints; nothing where it fails."""
    try:
        return subprocess.run(["git", *words], capture_output=True, text=True, check=True).stdout.strip()
    except (OSError, subprocess.CalledProcessError):
        return None


def clean_commit() -> str | None:
    """The last commit, if what mutants are tried over is as it has it."""
    return git("rev-parse", "--short=7", "HEAD") if git("status", "--porcelain", "--", *SOURCES) == "" else None


def sources_of(crate: str) -> list[str]:
    """What the proofs of a crate are made of, with all crates below it."""
    return [*(f"crates/{name}/{part}" for name in crates.with_below([crate]) for part in crates.PARTS), *SOURCES[1:]]


def kept(mutants: Mutants) -> dict[str, str]:
    """Those of the mutants, CRATE/NAME, that were refused over what is there now, and the commit of each."""
    if clean_commit() is None or not TRIED.exists():
        return {}
    tried = dict(line.split()[:2] for line in TRIED.read_text(encoding="utf-8").splitlines() if line[:1] != "#")
    same: dict[tuple[str, ...], bool] = {}

    def is_same(commit: str, paths: list[str]) -> bool:
        key = (commit, *paths)
        if key not in same:
            same[key] = git("diff", "--quiet", commit, "HEAD", "--", *paths) is not None
        return same[key]

    found = {}
    for crate, files in mutants.items():
        for file in files:
            commit = tried.get(f"{crate}/{file.stem}")
            if commit and is_same(commit, sources_of(crate)) and is_same(commit, [str(file)]):
                found[f"{crate}/{file.stem}"] = commit
    return found


def note_tried(verdicts: list[str], commit: str | None) -> None:
    """Writes in TRIED what was tried over a commit."""
    if commit is None:
        print(f"mutants.sh: {TRIED} stays as it is, since crates/ is not that of a commit", file=sys.stderr)
        return
    date = datetime.datetime.now(datetime.timezone.utc).date().isoformat()
    text = TRIED.read_text(encoding="utf-8") if TRIED.exists() else ""
    TRIED.write_text(with_tried(text, verdicts, commit, date, is_mutant), encoding="utf-8")


def checks_at_once() -> int:
    """How many checks run at the same time."""
    memory = os.sysconf("SC_PAGE_SIZE") * os.sysconf("SC_PHYS_PAGES")
    return max(1, min(len(os.sched_getaffinity(0)), memory // MEMORY))


def without(mutants: Mutants, names: collections.abc.Container[str]) -> Mutants:
    """The mutants except for these, CRATE/NAME."""
    left = {crate: [file for file in files if f"{crate}/{file.stem}" not in names] for crate, files in mutants.items()}
    return {crate: files for crate, files in left.items() if files}


def lines_of(trial: Trial, mutants: Mutants, is_singly: bool) -> collections.abc.Iterator[str]:
    """The lines of these mutants, as they come."""
    if not mutants:
        return
    refused: set[str] = set()
    trial.prove(list(mutants))
    with concurrent.futures.ThreadPoolExecutor(checks_at_once()) as executor:
        try:
            # what takes longest first
            items = sorted([] if is_singly else mutants.items(), key=lambda item: len(item[1]), reverse=True)
            trials = [executor.submit(trial.try_together, *item) for item in items]
            for future in concurrent.futures.as_completed(trials):
                lines = future.result()
                yield from lines
                refused |= {line.split()[1].rstrip(":") for line in lines}
        finally:
            trial.end()
            executor.shutdown(cancel_futures=True)
    trial.is_ended = False
    if left := without(mutants, refused):
        yield from trial.try_singly(left)


def named(words: list[str]) -> Mutants:
    """The mutants of these words, CRATE or CRATE/NAME, by their crates."""
    mutants: Mutants = {}
    for word in words:
        crate, _, name = word.partition("/")
        mutants.setdefault(crate, []).extend(mutant_files(crate, name or "*"))
    return mutants


def try_mutants(room: pathlib.Path, names: list[str], arguments: argparse.Namespace) -> int:
    """Tries the mutants of these names, prints the lines and the tally, and returns the status."""
    commit = clean_commit()
    mutants = named(names)
    before = kept(mutants) if arguments.changed else {}
    lines = [f"kept {name}: refused over {where}" for name, where in before.items()]
    for line in lines:
        print(line, flush=True)
    try:
        for line in lines_of(Trial(room), without(mutants, before), arguments.singly):
            print(line, flush=True)
            lines.append(line)
    finally:
        # what was refused counts, also of a run that is ended
        note_tried(lines, commit)
    passed = sum(line.startswith(("refused ", "kept ")) for line in lines)
    failed = sum(not line.startswith((" ", "refused ", "kept ")) for line in lines)
    print(f"{passed} passed, {failed} failed")
    return 1 if failed > 0 or passed == 0 else 0


def main(words: list[str]) -> int:
    os.chdir(crates.ROOT)
    for number, status in ((signal.SIGINT, 130), (signal.SIGTERM, 143), (signal.SIGHUP, 143)):
        # what is ignored stays so, as nohup has it
        if signal.getsignal(number) != signal.SIG_IGN:
            signal.signal(number, lambda *_, status=status: sys.exit(status))
    try:
        arguments = parse_arguments(words)
        if arguments.help:
            print(__doc__, end="")
            return 0
        names = arguments.words or sorted(filter(has_mutants, os.listdir("crates")))
        if arguments.above:
            names = list(filter(has_mutants, crates.with_above(names)))
        with tempfile.TemporaryDirectory(ignore_cleanup_errors=True) as room:
            return try_mutants(pathlib.Path(room), names, arguments)
    except Stop as stop:
        print(f"mutants.sh: {stop}", file=sys.stderr)
        return stop.status


if __name__ == "__main__":
    sys.exit(main(sys.argv[1:]))
