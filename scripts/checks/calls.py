#!/usr/bin/env python3
"""The last version, the C calls and the crates are the same wherever they are listed by hand.

What is generated of the calls is compared by scripts/checks/generated.sh. This is the rest: each call has a function in
each binding, tests and a promise; the names of docs/LANGUAGES.md are in the sources; each crate has its sentence, each
folder of tests/ its line, and each public call of shared_core is in the tests of the public API.
"""
from __future__ import annotations

import collections.abc
import pathlib
import re

import checks
import crates
import interface
from generators import calls_data, compiled


def read(path: str | pathlib.Path) -> str:
    return pathlib.Path(path).read_text(encoding="utf-8")


def together(*patterns: str) -> str:
    """The texts of all files whose paths are like these."""
    files = sorted(file for pattern in patterns for file in pathlib.Path().glob(pattern) if file.is_file())
    return "".join(read(file) for file in files)


def lacking(
    check: checks.Check, name: str, wanted: collections.abc.Iterable[str], found: collections.abc.Container[str]
) -> None:
    """Counts a case, which is right where none of the wanted ones is absent."""
    listed = list(wanted)
    absent = [one for one in listed if one not in found]
    check.case(name, bool(listed) and not absent, " ".join(absent))


# Where the last version is said by hand, and the pages and comments that say the range.
VERSIONS = ("tools/generators/record_vectors.py", "tests/vectors/cases.rt.in")
RANGES = (
    *("README.md", "conformance/*.md", "conformance/*.txt", "bench/README.md", "bench/src/*.rs", "docs/*.md"),
    *("include/*.h", "examples/*/*.c", "examples/*/*.py", "python/**/*.md", "python/**/*.py", "rust/src/**/*.rs"),
    *("crates/*/src/**/*.rt", "crates/*/specs/*.antt"),
)


def versions(check: checks.Check) -> None:
    """The last version is that of the library."""
    text = read("crates/shared_core_base/src/version.rt").partition("fn maximum_supported_version")[2]
    last = re.search(r"Version::V(\d+)", text.partition("\n    }\n")[0])[1]
    check.case(f"{calls_data.PATH}: the last version is {last}", str(calls_data.described()["versions"][1]) == last)
    for path in VERSIONS:
        found = re.findall(r"Version::V(\d+)|LAST_VERSION(?:: u32)? (?:= )?(\d+)", read(path))
        numbers = [int(one or other) for one, other in found]
        check.case(f"{path}: the last version is {last}", max(numbers, default=0) == int(last), numbers)
    said = re.findall(r"\bversion (?:is )?from 5 to (\d+)", together(*RANGES))
    check.case(f"pages say versions from 5 to {last}", bool(said) and set(said) == {last}, set(said))


# The calls that find items at the front of bytes. A package takes by those that fit it.
FINDING = ("next", "next_within", "items")


def lacking_in_package(
    check: checks.Check, place: str, named: dict[str, str], found: collections.abc.Container[str]
) -> None:
    """A package makes each call, by its name there, and finds items by one of those that do."""
    wanted = [name for call, name in named.items() if call not in FINDING]
    lacking(check, f"the calls that {place} lacks", wanted, found)
    check.case(f"{place} finds items", any(named[call] in found for call in FINDING))


def calls(check: checks.Check) -> None:
    """Each call has a function in each binding, tests of its own and a promise."""
    symbols = [call.symbol() for call in calls_data.calls()]
    names = [call.call for call in calls_data.calls()]
    in_python = {compiled.name_of(call, "Python"): call.symbol() for call in calls_data.calls()}
    # those with another name there
    in_python.update(re.findall(r'^    "(\w+)": "(journal_\w+)",$', read("python/pendratsoa/_named.py"), re.M))
    by_name = re.findall(r"\bnamed\.(\w+)", together("python/pendratsoa/*.py"))
    in_ruby = together(*(f"ruby/lib/pendratsoa/{name}.rb" for name in ("fields", "numbering", "pending", "replay")))
    by_place = re.findall(r"\bNamed::([A-Z_]+)\b", read("ruby/lib/pendratsoa/functions.rb") + in_ruby)
    uses = {
        "python/pendratsoa": [
            *re.findall(r"\blibrary\.(journal_\w+)", together("python/pendratsoa/*.py")),
            *(in_python.get(name, name) for name in by_name),
        ],
        "ruby/lib": [
            *re.findall(r":(journal_\w+)", in_ruby),
            *(f"journal_{name.lower()}" for name in by_place),
        ],
        "tests/ffi": re.findall(r"\b(journal_\w+)\(", together("tests/ffi/*.rt.in")),
        "docs/PROOFS.md": re.findall(
            r"`(journal_\w+)`", read("docs/PROOFS.md").partition("\n## journal_ffi:")[2].partition("\n## ")[0]
        ),
    }
    for place in ("tests/ffi", "docs/PROOFS.md"):
        lacking(check, f"the calls that {place} lacks", symbols, set(uses[place]))
    for place in ("python/pendratsoa", "ruby/lib"):
        lacking_in_package(check, place, dict(zip(names, symbols)), set(uses[place]))
    go = "".join(read(file) for file in sorted(pathlib.Path("go").glob("*.go")) if file.name != "library.go")
    in_go = {name: calls_data.camel(f"journal_{name}", False) for name in names}
    lacking_in_package(check, "go", in_go, set(re.findall(r"\bjournal[A-Z]\w*", go)))
    rust = "".join(read(file) for file in sorted(pathlib.Path("rust/src").rglob("*.rs")))
    lacking_in_package(check, "rust/src", {name: name for name in names}, set(re.findall(r"\bffi::(\w+)\(", rust)))
    in_node = {name: calls_data.camel(name, False, with_capitals=False) for name in names}
    node = set(re.findall(r"\baddon\.(\w+)\(", together("node/lib/*.js")))
    lacking_in_package(check, "node/lib", in_node, node)


SOURCES = {
    "C": ("include/*.h",),
    "Python": ("python/pendratsoa/*.py",),
    "Rust": ("rust/src/**/*.rs",),
    "Go": ("go/*.go",),
    "Ruby": ("ruby/lib/**/*.rb",),
    "TypeScript": ("node/index.d.ts", "node/names.d.ts"),
}


def languages(check: checks.Check) -> None:
    """The names in the tables of docs/LANGUAGES.md are words of the sources of their column."""
    words = {language: set(re.findall(r"[\w?]+", together(*patterns))) for language, patterns in SOURCES.items()}
    heads: list[str] = []
    named = set()
    for line in read("docs/LANGUAGES.md").splitlines():
        cells = [cell.strip() for cell in line.strip("|").split("|")]
        if not line.startswith("| "):
            continue
        if cells[-1] == "TypeScript":
            heads = cells
            continue
        for language, cell in zip(heads, cells):
            for code in re.findall(r"`([^`]*)`", cell):
                for word in re.findall(r"[A-Za-z_?]+", re.sub(r"\([^)]*\)", " ", code)):
                    if word != "new":
                        named.add(language)
                        check.case(f"docs/LANGUAGES.md: {word} of {language}", word in words.get(language, set()))
    lacking(check, "the languages that docs/LANGUAGES.md has no names of", SOURCES, named)


# Public functions that shared_core does not pass on, and those of the private modules pending_bytes and shared_chunks.
INNER = {"error_of", "split_to", "copy_to", "reserve", "take_head", "clone_each", "order_depends_on_the_set"}
PUBLIC = (
    "crates/shared_core/src/*.rt",
    "crates/shared_core/src/encoding/*.rt",
    "crates/shared_core/src/messages/*.rt",
    "crates/shared_core_stream/src/*.rt",
    "crates/shared_core_stream/src/encoding/*.rt",
    "crates/shared_core_errors/src/*.rt",
    "crates/shared_core_parts/src/conversions.rt",
    "crates/shared_core_parts/src/notification.rt",
    *(
        f"crates/shared_core_base/src/{name}.rt"
        for name in ("error", "header", "message_header", "type_kinds", "values", "version")
    ),
)


def crates_and_tests(check: checks.Check) -> None:
    """Each crate is on its pages, each folder of tests/ on its own, and each public call in the tests of the API."""
    listed = re.findall(r"^([a-z_]+)[a-z ]*:", read("crates.txt"), re.M)
    check.same(
        "crates.txt and crates/README.md", listed, re.findall(r"^\| `([a-z_]+)` \|", read("crates/README.md"), re.M)
    )
    rows = [line.split("|")[1] for line in read("docs/ARCHITECTURE.md").splitlines() if re.match(r"\| `[a-z_]*`", line)]
    named = {name for row in rows for name in re.findall(r"`([a-z_]+)`", row)}
    others = sorted(name for name in named - set(listed) if not pathlib.Path(name).is_dir())
    check.case("the rows of docs/ARCHITECTURE.md", bool(named) and not others, " ".join(others))
    # another repository has the crates that this pattern of the page on the library takes
    pattern = re.search(r"grep -E '(.*)' PENDRATSOA/crates.txt", read("crates/shared_core/README.md"))
    copied = [crate for crate in listed if pattern and re.match(pattern[1], crate)]
    check.same("the crates that crates/shared_core/README.md copies", copied, crates.with_below(copied))
    folders = sorted(folder.name for folder in pathlib.Path("tests").iterdir() if folder.is_dir())
    rows = [line.split("|")[1] for line in read("tests/README.md").splitlines() if line.startswith("| `")]
    check.same(
        "the folders of tests/ and tests/README.md",
        folders,
        sorted(name for row in rows for name in re.findall(r"`([a-z_]+)`", row)),
    )
    public = sorted(set(re.findall(r"^ *pub fn ([a-z_0-9]+)", together(*PUBLIC), re.M)) - INNER)
    lacking(
        check,
        "public calls that tests/public_api has not",
        public,
        set(re.findall(r"[a-z_0-9]+", together("tests/public_api/*.rt.in"))),
    )


def declarations(check: checks.Check) -> None:
    """The C headers declare what proto/interface.txt has, so that no change of a declaration goes unseen."""
    for change in interface.changes():
        check.case(f"tools/interface.py: {change}", False)
    check.case("the declarations of the C headers", bool(interface.before()))


def main(check: checks.Check) -> None:
    versions(check)
    calls(check)
    languages(check)
    crates_and_tests(check)
    declarations(check)


if __name__ == "__main__":
    checks.perform(main)
