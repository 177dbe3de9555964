"""What is linked into the programs and the library from the toolchain: its crates, with the licences of those that are
ports of others."""
from __future__ import annotations

import dataclasses
import functools
import pathlib
import subprocess

import crates

# What a licence is called in SPDX, by a phrase of its text.
PHRASES = (
    ("UNICODE LICENSE V3", "Unicode-3.0"),
    ("Unicode, Inc.", "Unicode-3.0"),
    ("Apache License", "Apache-2.0"),
    ("Permission is hereby granted, free of charge", "MIT"),
)

HEAD = """\
What is linked into {what} of Pendratsoa from the Rattle toolchain: its crates, each with its
licences. A crate that is a port of one for Rust, or has parts of others, has theirs, whose texts follow.

"""

NONE = "no licence of its own: the toolchain's"


@dataclasses.dataclass
class Linked:
    """A crate of the toolchain, with the texts of its licences by the names of their files."""

    name: str
    texts: dict[str, str]

    def expression(self) -> str:
        """Its licences as SPDX has them; those of the files LICENSE-MIT and LICENSE-APACHE are a choice."""
        names = {file: licence(text) for file, text in self.texts.items()}
        if {"LICENSE-MIT", "LICENSE-APACHE"} <= names.keys():
            del names["LICENSE-APACHE"]
            names["LICENSE-MIT"] = "(MIT OR Apache-2.0)" if len(names) > 1 else "MIT OR Apache-2.0"
        return " AND ".join(dict.fromkeys(names.values())) or "NOASSERTION"


@functools.cache
def toolchain() -> pathlib.Path:
    """The folder of the toolchain."""
    return pathlib.Path(subprocess.run(["rt", "doc"], capture_output=True, text=True, check=True).stdout.strip()).parent


def licence(text: str) -> str:
    """The name in SPDX of a licence of this text."""
    plain = " ".join(text.split())
    return next((name for phrase, name in PHRASES if phrase in plain), "NOASSERTION")


def linked(programs: list[str]) -> list[Linked]:
    """The toolchain's crates that crates of this repository use, and what those use, by their names."""
    listed = crates.uses()
    found: set[str] = set()
    wanted = ["std", *(name for crate in crates.with_below(programs) for name in listed[crate] if name not in listed)]
    while wanted:
        name = wanted.pop()
        if name not in found:
            found.add(name)
            lines = (toolchain() / "rlibs" / f"{name}.rlib" / "format").read_text().splitlines()
            wanted += [line.removeprefix("dep ") for line in lines if line.startswith("dep ")]
    return [Linked(name, texts_of(toolchain() / "rattle" / name)) for name in sorted(found)]


def texts_of(folder: pathlib.Path) -> dict[str, str]:
    """The texts of the licences in the folder of a crate."""
    return {file.name: file.read_text() for file in sorted(folder.glob("LICENSE*"))}


def page(found: list[Linked], what: str = "the programs and the library") -> str:
    """The licences of all of them, for anyone who passes on what they are linked into; each text is there once."""
    users: dict[str, list[str]] = {}
    for each in found:
        for text in each.texts.values():
            users.setdefault(f"{text.strip()}\n", []).append(each.name)
    lines = [f"{each.name}: {each.expression() if each.texts else NONE}\n" for each in found]
    texts = [f"\n{'=' * 78}\n{', '.join(dict.fromkeys(names))}\n\n{text}" for text, names in users.items()]
    return HEAD.format(what=what) + "".join(lines) + "".join(texts)
