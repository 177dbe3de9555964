#!/usr/bin/env python3
"""Builds a static library, or a program for arm64, with its proofs, where it is not there or older than a source:

    build.py [--target aarch64-unknown-linux-gnu] CRATE

    CRATE  journal_ffi or bench_ffi, whose library is crates/CRATE/out/libCRATE.a; for arm64 also journal or
           journal_list. What is for arm64 is in a folder of its own, out/TARGET.

The toolchain builds nothing that it has not proved, and rt ci keeps no library that C can link. So over what rt ci has
proved the functions of the crate itself are proved once more: journal_ffi takes some two minutes of CPU time, and
bench_ffi four. Over what rt check keeps either takes some ten seconds, and from nothing every crate below is proved
first. For arm64 only what depends on the processor is proved again of a library, and the functions of a program's own
crate. On the standard error it tells what it builds, and how long that takes; on the output it prints the line of the
verdict. Where there is no rt, or no compiler for arm64, it has status 2.
"""
from __future__ import annotations

import pathlib
import re
import shutil
import subprocess
import sys
import tempfile

import crates
from crates import ROOT
from machines import MACHINES, Machine

LIBRARIES = ("journal_ffi", "bench_ffi")
PROGRAMS = ("journal", "journal_list")

NATIVE, ARM = MACHINES


# How long a build over proved libraries takes, where nothing is kept of it.
TAKES = {"journal_ffi": "some two minutes", "bench_ffi": "some four minutes"}
TAKES_PROGRAM = "some four minutes"


class NotBuilt(Exception):
    """Why nothing is built: what is missing here."""


class Failed(Exception):
    """What a command has printed that failed."""


def run(words: list[str | pathlib.Path], folder: pathlib.Path = ROOT) -> str:
    """What a command prints."""
    ended = subprocess.run(words, cwd=folder, stdout=subprocess.PIPE, stderr=subprocess.STDOUT, text=True)
    if ended.returncode != 0:
        raise Failed(ended.stdout)
    return ended.stdout


def tell(text: str) -> None:
    """Says what begins, and takes long."""
    print(f"build.py: {text}", file=sys.stderr, flush=True)


def rlib(name: str) -> pathlib.Path:
    """The folder of a library of this repository, as it is built."""
    return ROOT / "crates" / name / "out/rlib"


def below(crate: str) -> list[str]:
    """The crates of this repository that a crate depends on."""
    return [name for name in crates.with_below([crate]) if name != crate]


def are_built(names: list[str]) -> bool:
    """Whether these libraries are there and none of their sources is newer."""
    return all(crates.is_newer(rlib(name) / f"{name}.rlib", [name]) for name in names)


def place(crate: str, machine: Machine) -> pathlib.Path:
    """Where what is built of a crate is."""
    folder = ROOT / "crates" / crate / "out" / ("" if machine is NATIVE else machine.target)
    return folder / (crate if crate in PROGRAMS else f"lib{crate}.a")


def built(crate: str, machine: Machine, kit: pathlib.Path, file: pathlib.Path) -> str:
    """Builds the library, or the object of the program, over the libraries below, which are proved; what is printed."""
    return compiled(crate, kit, file, ["--target", machine.target, "--toolchain", kit / "toolchain"])


def compiled(crate: str, kit: pathlib.Path, file: pathlib.Path, target: list[str | pathlib.Path],
             folder: pathlib.Path | None = None) -> str:
    """The same by the words that say for which target, of the sources of the crate or of another folder."""
    words = [kit / "bin/rattle", "build", *crates.read_over_libraries(crate, ROOT, kit)]
    words += ["--incremental", "out/incremental", "--jobs", "2", "--backend", "llvm", *target, "-o", file]
    file.parent.mkdir(parents=True, exist_ok=True)
    return run(words, folder or ROOT / "crates" / crate)


def link(machine: Machine, compiled: pathlib.Path, program: pathlib.Path) -> None:
    """Links a program with what it calls of the system, which the toolchain has compiled only for x86-64."""
    with tempfile.TemporaryDirectory() as work:
        made = pathlib.Path(work) / program.name
        flags = ["-std=c99", "-O2", "-Wall", "-Wextra", "-pie", "-Wl,-z,now"]
        sources = [ROOT / "scripts" / name for name in ("heap.c", "system.c")]
        run([f"{machine.tools}gcc", *flags, compiled, *sources, "-o", made])
        shutil.move(made, program)


def build(crate: str, machine: Machine) -> str:
    """Builds what is asked for; the line of the verdict."""
    if not shutil.which("rt"):
        raise NotBuilt("there is no rt")
    if crate in PROGRAMS and not shutil.which(f"{machine.tools}gcc"):
        raise NotBuilt(f"there is no {machine.tools}gcc")
    kit = pathlib.Path(run(["rt", "doc"]).strip()).parent
    libraries = below(crate)
    # what rt ci leaves has no stamp, and rt lib would prove it again; rattle itself takes it as it is
    is_of_rt = any((rlib(name) / "stamp").exists() for name in libraries)
    said = ""
    if not are_built(libraries) or (machine is NATIVE and is_of_rt):
        tell("proving what is not proved yet, from nothing in more than an hour of CPU time")
        said = run(["rt", "lib"] if crate in LIBRARIES else ["rt", "check"], ROOT / "crates" / crate)
    if machine is not NATIVE or not said:
        target = place(crate, machine)
        takes = TAKES.get(crate, TAKES_PROGRAM)
        tell(f"building {crate} for {machine.name} over the proved libraries: its own functions are proved once more, "
             f"in {takes} of CPU time the first time")
        if crate in LIBRARIES:
            said = built(crate, machine, kit, target)
        else:
            said = built(crate, machine, kit, target.with_name(f"{crate}.o"))
            link(machine, target.with_name(f"{crate}.o"), target)
    return re.findall("^logic=proved .*$", said, re.M)[-1]


def main() -> int:
    words = sys.argv[1:]
    machine = NATIVE
    if words[:1] == ["--target"] and words[1:2] in ([NATIVE.target], [ARM.target]):
        machine = ARM if words[1] == ARM.target else NATIVE
        words = words[2:]
    if len(words) != 1 or words[0] not in (LIBRARIES if machine is NATIVE else LIBRARIES + PROGRAMS):
        print(__doc__.strip(), file=sys.stderr)
        return 1
    try:
        with crates.in_turn(words[0]):
            if not crates.is_up_to_date(place(words[0], machine), words[0]):
                print(build(words[0], machine))
    except NotBuilt as why:
        print(f"build.py: not run, since {why}")
        return 2
    except Failed as failed:
        print(failed)
        return 1
    return 0


if __name__ == "__main__":
    sys.exit(main())
