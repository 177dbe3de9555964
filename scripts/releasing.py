#!/usr/bin/env python3
"""Runs what is run before a release, in order, and then makes it: scripts/releasing.sh [OPTION..] FOLDER

    FOLDER          where the outputs are kept, each as NAME.log, and at the end the release, in FOLDER/files
    --sign KEY      signs the checksums of the release with a key of minisign
    --measure       only measures, on another processor; its FOLDER/speed goes into that of the machine of the release
    --allow TEXT    what may say 'not run', by the beginning of its line; may be given several times; with 'measured on'
                    the tables of one processor are enough
    --list          lists the stages

It stops at the first stage that fails, in which a case fails, or of which a part is not run, and says so. What has
passed over this commit is not run again. docs/RELEASING.md says more.
"""
from __future__ import annotations

import argparse
import dataclasses
import os
import pathlib
import re
import shutil
import subprocess
import sys

ROOT = pathlib.Path(__file__).resolve().parent.parent

# On how many processors the library is measured.
PROCESSORS = 2

NOT_RUN = re.compile(r"^(.*)\bnot run(, since|: )")
COUNTS = re.compile(r"^\d+ passed, (\d+) failed$")


@dataclasses.dataclass(frozen=True)
class Stage:
    """A command that has to pass, and what of the commit it depends on."""

    name: str
    words: str
    about: str
    of: str = "HEAD"
    is_measure: bool = False


STAGES = (
    Stage("mutants", "scripts/mutants.sh --changed", "the prover rejects every planted bug", of="HEAD:crates"),
    Stage("gate", "scripts/test.sh", "every proof, test and check of the gate"),
    Stage("systems", "scripts/check.sh before_release", "on arm64, and the files of a release in bare systems"),
    Stage("agree", "scripts/bench.sh agree 1 200000", "the library and prost agree on 200,000 random cases"),
    Stage("speed", "scripts/bench.sh speed", "the tables of the library", is_measure=True),
    Stage("programs", "scripts/bench.sh programs", "those of the programs", is_measure=True),
    Stage("journals", "scripts/bench.sh journals", "those of journals compared", is_measure=True),
    Stage("messages", "scripts/bench.sh messages", "those of structs in C", is_measure=True),
    Stage("languages", "scripts/bench.sh languages", "those of the packages", is_measure=True),
)


class Stopped(Exception):
    """Why it is stopped."""


def git(*words: str) -> str:
    return subprocess.run(["git", *words], stdout=subprocess.PIPE, text=True, check=True).stdout.strip()


def processor() -> str:
    """The name of this processor, as a folder can have it."""
    found = re.search(r"^model name\s*: (.*)$", pathlib.Path("/proc/cpuinfo").read_text(), re.MULTILINE)
    return re.sub(r"\W+", "_", found[1] if found else os.uname().machine).strip("_")


def log_of(stage: Stage, folder: pathlib.Path) -> pathlib.Path:
    return (folder / "speed" / processor() if stage.is_measure else folder) / f"{stage.name}.log"


def has_passed(mark: pathlib.Path, of: str) -> bool:
    """Whether a mark is there, and is of this commit, or of this part of it."""
    return mark.exists() and mark.read_text().strip() == git("rev-parse", of)


def perform(stage: Stage, folder: pathlib.Path, allowed: list[str]) -> None:
    """Runs a stage, unless it has passed over the same."""
    log = log_of(stage, folder)
    mark = log.with_suffix(".passed")
    if has_passed(mark, stage.of):
        print(f"releasing.sh: {stage.name}: passed before, {log}")
        return
    print(f"releasing.sh: {stage.name}: {stage.about}; what it prints is in {log}", flush=True)
    log.parent.mkdir(parents=True, exist_ok=True)
    with log.open("w") as file:
        status = subprocess.run(["sh", *stage.words.split()], stdout=file, stderr=subprocess.STDOUT).returncode
    lines = log.read_text(errors="replace").splitlines()
    counts = COUNTS.match(lines[-1] if lines else "")
    absent = [line for line in lines if NOT_RUN.match(line) and not line.startswith(tuple(allowed))]
    if status != 0 or (counts and int(counts[1])):
        raise Stopped(f"{stage.name} has failed: {lines[-1] if lines else f'status {status}'}; {log} has the rest")
    if absent:
        raise Stopped(f"{stage.name} was not run as a whole: {absent[0]}; --allow lets it pass")
    mark.write_text(f"{git('rev-parse', stage.of)}\n")


def main(words: list[str]) -> int:
    if words == ["--help"]:
        print(__doc__.strip())
        return 0
    if words == ["--list"]:
        for stage in STAGES:
            print(f"{stage.name:9} sh {stage.words}: {stage.about}")
        return 0
    parser = argparse.ArgumentParser(prog="releasing.sh", usage="releasing.sh [OPTION..] FOLDER", add_help=False)
    parser.add_argument("folder", metavar="FOLDER")
    parser.add_argument("--sign", metavar="KEY")
    parser.add_argument("--measure", action="store_true")
    parser.add_argument("--allow", action="append", default=[])
    options = parser.parse_args(words)
    options.sign = options.sign and os.path.abspath(options.sign)
    folder = pathlib.Path(options.folder).resolve()
    os.chdir(ROOT)
    try:
        run(folder, options)
    except Stopped as why:
        print(f"releasing.sh: stopped, since {why}", file=sys.stderr)
        return 1
    return 0


def run(folder: pathlib.Path, options: argparse.Namespace) -> None:
    """Runs all stages, and makes the release."""
    if folder == ROOT or ROOT in folder.parents:
        raise Stopped("FOLDER is in the repository")
    for stage in STAGES:
        if stage.is_measure or not options.measure:
            # a stage may write what belongs into the commit, as docs/mutants.tried
            if git("status", "--porcelain"):
                raise Stopped("there are changes that are not committed; commit them, and run it again")
            perform(stage, folder, options.allow)
    if options.measure:
        return
    marks = [f"{stage.name}.passed" for stage in STAGES if stage.is_measure]
    places = sorted((folder / "speed").iterdir())
    measured = [place.name for place in places if all(has_passed(place / mark, "HEAD") for mark in marks)]
    on = f"measured on {', '.join(measured)}"
    if len(measured) < PROCESSORS and not on.startswith(tuple(options.allow)):
        raise Stopped(
            f"this commit is {on} only, and has to be on {PROCESSORS} processors: run it with --measure on another "
            "one, and copy its speed folder here, or allow it by --allow 'measured on'"
        )
    files = folder / "files"
    # what an earlier run has left of them is made again
    shutil.rmtree(files, ignore_errors=True)
    logs = ["--gate", str(folder / "gate.log"), "--systems", str(folder / "systems.log")]
    signing = ["--sign", options.sign] if options.sign else []
    if subprocess.run(["sh", "scripts/release.sh", *logs, *signing, str(files)]).returncode != 0:
        raise Stopped("scripts/release.sh has failed")


if __name__ == "__main__":
    sys.exit(main(sys.argv[1:]))
