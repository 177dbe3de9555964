"""The processors that there are programs and a library for, and what each is called by others."""
from __future__ import annotations

import dataclasses
import pathlib
import re
import subprocess


@dataclasses.dataclass(frozen=True)
class Machine:
    """A processor: its name as uname prints it, and what Debian, Node and Go call it."""

    name: str
    debian: str
    node: str
    go: str
    # how the names of the tools for it begin
    tools: str

    @property
    def target(self) -> str:
        return f"{self.name}-unknown-linux-gnu"

    @property
    def triplet(self) -> str:
        return f"{self.name}-linux-gnu"

    def words(self) -> list[str]:
        """The words by which scripts/install.sh is told of it."""
        return ["--target", self.target] if self.tools else []

    def glibc(self, *files: pathlib.Path) -> str:
        """The latest version of the C library that a symbol of these files has."""
        words = ["readelf", "-V", *map(str, files)]
        shown = subprocess.run(words, stdout=subprocess.PIPE, text=True, check=True).stdout
        found = re.findall(r"GLIBC_(\d[0-9.]*)", shown)
        return max(found, key=lambda number: [int(part) for part in number.split(".")])


MACHINES = (
    Machine("x86_64", "amd64", "x64", "amd64", tools=""),
    Machine("aarch64", "arm64", "arm64", "arm64", tools="aarch64-linux-gnu-"),
)
