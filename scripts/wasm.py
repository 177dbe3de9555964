#!/usr/bin/env python3
"""Builds the library for C as a WebAssembly module, where it is not there or older than a source:

    wasm.py             crates/journal_ffi/out/wasm/pendratsoa.wasm; next to it pendratsoa64.wasm, with a 64-bit memory
    wasm.py --compare   compares what this makes with what the toolchain makes for wasm64, of the calls without a heap
    wasm.py --of OUT.wasm SOURCE.c..    makes a module of sources in C, for tests

The toolchain compiles what allocates for its other targets only. So the library is proved and lowered for x86-64 here;
the LLVM module of that is given the target wasm64 by wasm/retarget.py, and linked with wasm/heap.c and wasm/calls.c;
wasm/lower.py makes addresses of 32 bits, which every engine has. wasm/README.md tells what that means for the proofs.

It takes some 80 seconds of CPU time over proved crates, four minutes where journal_ffi is proved for this target too.
--compare takes three minutes the first time, half a minute later. It prints the line of the verdict, and where there
is no rt it has status 2.
"""
from __future__ import annotations

import pathlib
import re
import shutil
import sys
import tempfile

import build
import crates
from build import Failed, NotBuilt, run, tell
from crates import ROOT

CRATE = "journal_ffi"
FOLDER = ROOT / "wasm"
OUT = ROOT / "crates" / CRATE / "out/wasm"
MODULE = OUT / "pendratsoa.wasm"
# what a module is made of besides the crate
PARTS = [*(FOLDER / name for name in ("calls.c", "heap.c", "retarget.py", "lower.py")), pathlib.Path(__file__)]

# The words by which rattle itself calls clang for wasm64, and vectors of 128 bits, which all engines have.
CLANG = (
    "--target=wasm64-unknown-unknown -mcpu=lime1 -mllvm -expand-div-rem-bits=64 -mllvm -expand-fp-convert-bits=64 "
    "-ffunction-sections -fdata-sections -mllvm -trap-unreachable -mllvm -no-x86-call-frame-opt "
    "-mllvm -disable-machine-licm -mllvm -disable-postra-machine-licm -mllvm -sink-common-insts=false "
    "--no-default-config -no-canonical-prefixes -fno-crash-diagnostics -O3 -msimd128"
).split()
C = ["-std=c11", "-Wall", "-Wextra", "-Werror", "-ffreestanding", "-nostdinc"]

# The code for a plain processor has no instruction of one.
PLAIN = ["--target", "x86_64-unknown-linux-gnu", "--cpu", "x86-64"]
WASM64 = ["--target", "wasm64-unknown-unknown"]


def kept_module(kit: pathlib.Path, target: list[str], folder: pathlib.Path, kept: pathlib.Path) -> str:
    """Proves and compiles the sources of a folder, and keeps the LLVM module that rattle gives clang, as a text; the
    line of the verdict."""
    with tempfile.TemporaryDirectory() as work:
        tools = pathlib.Path(work)
        (tools / "bin").mkdir()
        (tools / "lib").symlink_to(kit / "toolchain/lib")
        for name in ("ld.lld", "llvm-ar"):
            (tools / "bin" / name).symlink_to(kit / "toolchain/bin" / name)
        clang = kit / "toolchain/bin/clang"
        # rattle calls clang without an environment, in a folder of its own, on module.bc; nothing takes the library of
        # it, and that of an empty module takes no time
        empty = f"echo 'target triple = \"{target[1]}\"' > module.bc"
        kept_bc = f"if [ -e module.bc ]; then /bin/cp module.bc '{tools}/kept.bc'; {empty}; fi"
        wrapper = f"#!/bin/sh\n{kept_bc}\nexec '{clang}' \"$@\"\n"
        (tools / "bin/clang").write_text(wrapper)
        (tools / "bin/clang").chmod(0o755)
        said = build.compiled(CRATE, kit, tools / "library.a", [*target, "--toolchain", tools], folder)
        kept.parent.mkdir(parents=True, exist_ok=True)
        # the words of clang that change nothing of a module
        words = ["-x", "ir", tools / "kept.bc", "-S", "-emit-llvm", "-O0", "-Xclang", "-disable-llvm-passes"]
        run([clang, f"--target={target[1]}", *words, "-o", kept])
    return re.findall("^logic=proved .*$", said, re.M)[-1]


def tool(name: str, *words: str | pathlib.Path) -> str:
    """What a program of the folder wasm prints."""
    return run([sys.executable, "-B", FOLDER / name, *words])


def linked(kit: pathlib.Path, sources: list[pathlib.Path], target: pathlib.Path) -> None:
    """Links sources, each in C or a module of LLVM, as a module with a 32-bit memory; next to it one with a 64-bit
    memory, from which that is made."""
    clang = kit / "toolchain/bin/clang"
    headers = ["-I", ROOT / "include", "-isystem", FOLDER / "tests/include"]
    with tempfile.TemporaryDirectory() as work:
        objects = []
        for source in sources:
            objects.append(pathlib.Path(work) / f"{source.stem}.o")
            words = [*C, *headers] if source.suffix == ".c" else ["-Werror", "-x", "ir"]
            run([clang, *CLANG, *words, "-c", source, "-o", objects[-1]])
        archive = pathlib.Path(work) / "library.a"
        # the toolchain's linker takes it as a static library of its own, with its own helpers
        run([kit / "toolchain/bin/llvm-ar", "--format=gnu", "rcs", archive, *objects])
        wide = target.with_name(f"{target.stem}64.wasm")
        run([kit / "bin/rattle-link", *WASM64, "--toolchain", kit / "toolchain", "-o", wide, archive])
    made = target.with_suffix(".new")
    tool("lower.py", wide, made)
    made.replace(target)


def toolchain() -> pathlib.Path:
    """The toolchain's folder."""
    if not shutil.which("rt"):
        raise NotBuilt("there is no rt")
    return pathlib.Path(run(["rt", "doc"]).strip()).parent


def proved_below() -> pathlib.Path:
    """The toolchain's folder, after all crates below are proved."""
    kit = toolchain()
    if not build.are_built(build.below(CRATE)):
        tell("proving what is not proved yet, from nothing in more than an hour of CPU time")
        run(["rt", "lib"], ROOT / "crates" / CRATE)
    return kit


def make() -> str:
    """Builds the module; the line of the verdict, which is of the module of LLVM for x86-64."""
    kit = proved_below()
    tell("building the WebAssembly module over the proved libraries, in one to four minutes of CPU time")
    verdict = kept_module(kit, PLAIN, ROOT / "crates" / CRATE, OUT / "library.ll")
    tool("retarget.py", OUT / "library.ll", OUT / "retargeted.ll")
    linked(kit, [OUT / "retargeted.ll", FOLDER / "heap.c", FOLDER / "calls.c"], MODULE)
    return verdict


def compare() -> str:
    """Compares the retargeted module with the toolchain's own, of the calls without a heap; what was compared."""
    kit = proved_below()
    folder = OUT / "without_heap"
    shutil.rmtree(folder / "src", ignore_errors=True)
    tool("without_heap.py", ROOT / "crates" / CRATE / "src", folder / "src")
    tell("building the calls without a heap twice, in one to three minutes of CPU time")
    kept_module(kit, PLAIN, folder, folder / "plain.ll")
    verdict = kept_module(kit, WASM64, folder, folder / "wasm64.ll")
    tool("retarget.py", folder / "plain.ll", folder / "retargeted.ll")
    return f"{verdict}\n{tool('same_module.py', folder / 'retargeted.ll', folder / 'wasm64.ll')}"


def is_up_to_date() -> bool:
    if not crates.is_up_to_date(MODULE, CRATE):
        return False
    return all(part.stat().st_mtime_ns <= MODULE.stat().st_mtime_ns for part in PARTS)


def main() -> int:
    words = sys.argv[1:]
    if words not in ([], ["--compare"]) and (words[0] != "--of" or len(words) < 3):
        print(__doc__.strip(), file=sys.stderr)
        return 1
    try:
        if words[:1] == ["--of"]:
            linked(toolchain(), [pathlib.Path(source) for source in words[2:]], pathlib.Path(words[1]))
            return 0
        with crates.in_turn(CRATE):
            if words:
                print(compare())
            elif not is_up_to_date():
                print(make())
    except NotBuilt as why:
        print(f"wasm.py: not run, since {why}")
        return 2
    except Failed as failed:
        print(failed)
        return 1
    return 0


if __name__ == "__main__":
    sys.exit(main())
