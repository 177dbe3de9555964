#!/usr/bin/env python3
"""Compares the library, prost and the rules: bench/vectors.sh [--no-install] [SEED [COUNT]]

It shows that the other readers give the results of conformance/*.txt, that the files that are not written
by hand are what their programs write, and that the library gives the readers' results for random cases. The last takes
the static library for C, which scripts/build.py builds over what is proved, and a C compiler. The last line is
'N passed, M failed'; it is '0 passed, 0 failed' if the tools are missing.
"""
from __future__ import annotations

import collections.abc
import os
import subprocess
import sys

from shared import BENCH, PROGRAMS, ROOT

sys.path.insert(1, str(ROOT / "scripts" / "checks"))

from checks import Check, NotRun, perform, run  # noqa: E402

VECTORS = ROOT / "conformance"

# As many random cases as the gate has: among these are some of each kind, whatever the seed.
COUNT = 50000


def kinds(lines: collections.abc.Iterable[str]) -> set[str]:
    """Of each test vector its schema, or its type and its version, and whether its result is 'malformed'."""
    found = set()
    for words in map(str.split, lines):
        if words and not words[0].startswith("#"):
            if words[0] == "frame":
                found.add(" ".join(words[:3]))
            result = "malformed" if words[-1] == "malformed" else "well-formed"
            found.add(" ".join(words[:2] if words[0] == "stream" else [*words[:2], result]))
    return found


def random_cases(check: Check, seed: str, count: str) -> None:
    """The library gives the readers' results, and of many cases there are some of each kind."""
    file = check.work / "lines"
    with file.open("wb") as out:
        if subprocess.run([PROGRAMS / "vectors", seed, count], stdout=out).returncode != 0:
            check.case(f"vectors {seed} {count}", False)
            return
    print(f"random cases: seed {seed}, {count} of them", flush=True)
    if int(count) >= COUNT:
        wanted = kinds(line for path in VECTORS.glob("random_*.txt") for line in path.open())
        lacking = sorted(wanted - kinds(file.open()))
        check.case("random cases of each kind, which lack these", bool(wanted) and not lacking, "\n".join(lacking))
    check.counted("the library on random cases", ["sh", "scripts/checks/c_vectors.sh"], given=file)


def main(check: Check) -> None:
    options = [word for word in sys.argv[1:] if word == "--no-install"]
    numbers = [word for word in sys.argv[1:] if word not in options]
    seed = numbers[0] if numbers else "1"
    count = numbers[1] if len(numbers) > 1 else str(COUNT)
    ready = run(["sh", BENCH / "install.sh", *options])
    # a tool is absent
    if ready.status == 77:
        raise NotRun(ready.out.decode().strip().removeprefix("not run: "))
    if not check.case("install.sh", ready.status == 0, ready):
        return
    built = ["cargo", "build", "--release", "--bin", "agree", "--bin", "vectors"]
    if not check.command("cargo build", built, cwd=BENCH):
        return
    # what measures compiles too; nothing of it is linked here
    places = {"BENCH_FFI": str(BENCH), "RATTLE_C": str(BENCH)}
    check.command("cargo check", ["cargo", "check", "--release", "--all-features"], cwd=BENCH, env=os.environ | places)
    # prost has no tables of fields
    files = sorted(path for path in VECTORS.glob("*.txt") if path.name != "fields.txt")
    check.counted("the readers on the test vectors", [PROGRAMS / "agree", "--vectors", *files])
    generators = ("random_vectors", "peer", "long_vectors", "record_vectors")
    check.counted("what is generated", ["python3", "tools/generate.py", "--check", *generators])
    # what is random last, so that what the readers differ on is seen before
    random_cases(check, seed, count)


if __name__ == "__main__":
    perform(main)
