"""The crates of this repository, by crates.txt: which uses which, and whether what was built of one is up to date."""
from __future__ import annotations

import collections.abc
import contextlib
import fcntl
import os
import pathlib

ROOT = pathlib.Path(__file__).resolve().parent.parent

# The folders of a crate that it is built of.
PARTS = ("src", "specs", "proofs")


# The names under which the program journal is a subcommand.
LINKS = ("journal_dump", "journal_make", "journal_diff", "journal_show")

# The man pages of its other subcommands, except list.
PAGES = ("journal_cut", "journal_cat")


def crate_of(program: str) -> str:
    """The crate of a program."""
    return "journal" if program in LINKS else program


def lines() -> dict[str, str]:
    """The line of each crate in crates.txt, 'NAME [WORD..]: CRATE..'."""
    listed = (ROOT / "crates.txt").read_text().splitlines()
    return {line.split()[0].rstrip(":"): line for line in listed if line and not line.startswith("#")}


def uses() -> dict[str, list[str]]:
    """The crates that each crate names, some of them the toolchain's."""
    return {name: line.partition(":")[2].split() for name, line in lines().items()}


def with_below(crates: collections.abc.Iterable[str]) -> list[str]:
    """These crates and those of this repository that they depend on, the lowest first."""
    listed = uses()
    found: dict[str, None] = {}

    def visit(crate: str) -> None:
        if crate in listed and crate not in found:
            for name in listed[crate]:
                visit(name)
            found[crate] = None

    for crate in crates:
        visit(crate)
    return list(found)


def with_above(crates: collections.abc.Iterable[str]) -> list[str]:
    """These crates and all that depend on them."""
    listed = uses()
    found = list(dict.fromkeys(crates))
    for crate in found:
        found += [user for user, names in listed.items() if crate in names and user not in found]
    return found


def read_over_libraries(crate: str, top: pathlib.Path, kit: pathlib.Path) -> list[str | pathlib.Path]:
    """The words by which the prover reads a crate over the libraries that are proved in the checkout at top."""
    listed = uses()
    is_program = (top / "crates" / crate / "src/main.rt").exists()
    words: list[str | pathlib.Path] = ["--crate-name", crate, "src/main.rt" if is_program else "src/lib.rt"]
    words += ["--crate-type", "staticlib"] if "staticlib" in lines()[crate].partition(":")[0].split() else []
    for name in ["std", *listed[crate]]:
        # what is not a crate of this repository is one of the toolchain's
        folder = top / "crates" / name / "out/rlib" if name in listed else kit / "rlibs"
        words += ["--extern", f"{name}={folder / name}.rlib"]
    below = [top / "crates" / name / "out/rlib" for name in with_below([crate]) if name != crate]
    for folder in [kit / "rlibs", *below]:
        words += ["-L", f"dependency={folder}"]
    words += ["--antt-project", kit / "rattle/logic/antt-project.json", "--logic-built", kit / "logic_built"]
    return [*words, "--links", f"{crate}="]


def is_up_to_date(file: pathlib.Path, crate: str) -> bool:
    """Whether a file exists and no source of the crate, or of one that it depends on, is newer."""
    return is_newer(file, with_below([crate]))


@contextlib.contextmanager
def in_turn(crate: str) -> collections.abc.Iterator[None]:
    """Waits until no other command builds this crate, and keeps them waiting: checks that run side by side use it."""
    folder = os.open(ROOT / "crates" / crate, os.O_RDONLY)
    try:
        fcntl.flock(folder, fcntl.LOCK_EX)
        yield
    finally:
        os.close(folder)


def is_newer(file: pathlib.Path, crates: collections.abc.Iterable[str]) -> bool:
    """Whether a file exists and no source of these crates is newer."""
    if not file.exists():
        return False
    built = file.stat().st_mtime_ns
    sources = [ROOT / "crates.txt"]
    for name in crates:
        for part in PARTS:
            for folder, folders, files in os.walk(ROOT / "crates" / name / part):
                sources += [pathlib.Path(folder, entry) for entry in ["", *files]]
    return all(source.stat().st_mtime_ns <= built for source in sources)
