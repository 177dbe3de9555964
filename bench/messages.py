#!/usr/bin/env python3
"""Measures the structs of pendratsoa_messages.h against protobuf-c and the classes of libprotobuf: bench/messages.sh
[--no-install]

A line is a workload, the work (payloads decoded and two fields read, or records encoded), the nanoseconds of a message
on each side, and how many times as fast this library is. Then comes the iterator of fields in Rattle against prost. It
takes the Debian packages libprotobuf-c-dev, protobuf-c-compiler, protobuf-compiler and libprotobuf-dev, which it
installs unless it is not to, and what speed.sh takes; where one is missing it says 'not run'.
"""
from __future__ import annotations

import pathlib
import re
import shutil
import subprocess
import sys
import tempfile
import typing

import shared
from shared import BENCH, OPTIMIZED, PROGRAMS, NotRun

PACKAGES = ("libprotobuf-c-dev", "protobuf-c-compiler", "protobuf-compiler", "libprotobuf-dev")
TOOLS = ("protoc", "protoc-c", "python3", "c++")
SOURCES = BENCH / "messages"
LIBRARY = BENCH / "target" / "pendratsoa"

# An optional field of proto3. protobuf-c takes none of these: it is a oneof of one member, with the same bytes.
OPTIONAL = re.compile(r"^  optional ([a-z0-9]+) ([a-z_]+) = ([0-9]+);", re.MULTILINE)


def run(*words: str | pathlib.Path, **how: typing.Any) -> None:
    subprocess.run(words, check=True, **how)


def install() -> None:
    """Installs the packages where protoc-c is missing."""
    if not shutil.which("protoc-c") and shutil.which("apt-get"):
        subprocess.run(["apt-get", "install", "-y", *PACKAGES], capture_output=True)


def generate(work: pathlib.Path) -> None:
    """Has the code of both other sides written, and what leads to their messages."""
    (work / "c").mkdir()
    text = shared.description()
    (work / "peer.proto").write_text(text)
    (work / "c" / "peer.proto").write_text(OPTIONAL.sub(r"  oneof optional_\2 { \1 \2 = \3; }", text))
    run("protoc", f"-I{work}", f"--cpp_out={work}", "peer.proto")
    run("protoc-c", f"-I{work / 'c'}", f"--c_out={work / 'c'}", "peer.proto")
    run("python3", SOURCES / "descriptors.py", work)


def compile_all(work: pathlib.Path) -> pathlib.Path:
    """Compiles the program that measures, of an object for each side."""
    c, cc = ("cc", *OPTIMIZED), ("c++", *OPTIMIZED, "-I", work)
    strict = (*c, "-std=c99")
    run(*strict, "-I", LIBRARY / "include", "-c", SOURCES / "ours.c", "-o", work / "ours.o")
    run(*strict, "-I", work, "-I", work / "c", "-c", SOURCES / "protobuf_c.c", "-o", work / "protobuf_c.o")
    run(*c, "-c", work / "c" / "peer.pb-c.c", "-o", work / "peer_c.o")
    run(*strict, "-c", SOURCES / "main.c", "-o", work / "main.o")
    run(*cc, "-c", SOURCES / "libprotobuf.cc", "-o", work / "libprotobuf.o")
    run(*cc, "-c", work / "peer.pb.cc", "-o", work / "peer.o")
    program = work / "measure"
    libraries = (LIBRARY / "lib" / "libpendratsoa.a", "-lprotobuf-c", "-lprotobuf", "-lpthread")
    run("c++", *sorted(work.glob("*.o")), *libraries, "-o", program)
    return program


def measure() -> None:
    """Measures what is built."""
    for tool in TOOLS:
        if not shutil.which(tool):
            raise NotRun(f"there is no {tool}; the packages are {' '.join(PACKAGES)}")
    with tempfile.TemporaryDirectory() as folder:
        work = pathlib.Path(folder)
        generate(work)
        program = compile_all(work)
        lines = subprocess.run([PROGRAMS / "workloads"], check=True, stdout=subprocess.PIPE).stdout
        run(program, input=lines)
    run(PROGRAMS / "fields")


def main(words: list[str]) -> int:
    shared.build(words)
    if words[:1] != ["--no-install"]:
        install()
    try:
        measure()
    except NotRun as why:
        print(f"messages.sh: not run, since {why}")
    except subprocess.CalledProcessError as failed:
        print(f"messages.sh: {failed}", file=sys.stderr)
        return 1
    return 0


if __name__ == "__main__":
    sys.exit(main(sys.argv[1:]))
