#!/usr/bin/env python3
"""Measures the typed messages of each language against what its users would pick: bench/languages.sh [--no-install]

A line is the language, the record, the work (a payload decoded and two fields read, or a record encoded), microseconds
of CPU time of this library's package and of the other, and how many times as fast this one is. There are also the items
of a stream, the same with two fields of each read, replays, frames and JSON. The others are protobuf's own packages of
Debian, for streams and frames with a framing of twenty lines, and prost with serde_json. For C it is libprotobuf, and
the records are those of messages.sh. For Node they are JSON.parse of the dump, and protobuf by hand
(languages/peer.mjs). Where one is missing it says 'not run'. Python and Ruby are measured with their compiled modules,
and without them as python-ctypes and ruby-fiddle. Lines of node-forms are the package for Node over its addon and over
the WebAssembly module.
"""
from __future__ import annotations

import os
import pathlib
import shutil
import subprocess
import sys
import tempfile
import typing

import shared
from shared import BENCH, OPTIMIZED, PROGRAMS, ROOT, NotRun

MEASURES = BENCH / "languages"

# Debian has the sources of protobuf for Go in a folder of GOPATH, and no module of them.
GO_PACKAGES = pathlib.Path("/usr/share/gocode")


def run(*words: str | pathlib.Path, **env: str) -> None:
    """Runs a command, whose lines are shown."""
    subprocess.run(words, check=True, env={**os.environ, **env})


def quietly(*words: str | pathlib.Path, **how: typing.Any) -> None:
    """Runs a command, whose lines are not shown."""
    subprocess.run(words, check=True, stdout=subprocess.DEVNULL, **how)


def is_there(*words: str) -> bool:
    """Whether a command can be run and succeeds."""
    return bool(shutil.which(words[0])) and subprocess.run(words, stderr=subprocess.DEVNULL).returncode == 0


def c(work: pathlib.Path) -> None:
    shared.needs("c++", "g++")
    if not pathlib.Path("/usr/include/google/protobuf/util/json_util.h").exists():
        raise NotRun("there is no libprotobuf-dev")
    prefix = work / "prefix"
    (work / "peer.proto").write_text(shared.description())
    run("protoc", f"-I{work}", f"--cpp_out={work}", "peer.proto")
    sources = (MEASURES / "measure.cc", work / "peer.pb.cc", prefix / "lib" / "libpendratsoa.a")
    options = ("-std=c++14", *OPTIMIZED, "-I", prefix / "include", "-I", work)
    run("c++", *options, *sources, "-lprotobuf", "-lpthread", "-o", work / "measure_c")
    run(work / "measure_c", MEASURES / "messages.txt")


def rust(work: pathlib.Path) -> None:
    run(PROGRAMS / "typed")


def python(work: pathlib.Path) -> None:
    program = "/usr/bin/python3"
    if not is_there(program, "-c", "import google.protobuf"):
        raise NotRun("there is no python3-protobuf")
    folder = shutil.copytree(ROOT / "python", work / "python")
    # without the headers of CPython both measures are those of ctypes
    subprocess.run([program, "setup.py", "--quiet", "build_ext", "--inplace"], cwd=folder, capture_output=True)
    for is_pure in ("", "1"):
        env = {"PENDRATSOA_PURE": is_pure, "PYTHONPATH": str(folder), "PYTHONDONTWRITEBYTECODE": "1"}
        run(program, MEASURES / "measure.py", work, **env)


def ruby(work: pathlib.Path) -> None:
    if not is_there("ruby", "-e", 'require "google/protobuf"'):
        raise NotRun("there is no ruby-google-protobuf")
    folder = shutil.copytree(ROOT / "ruby", work / "ruby")
    quietly("sh", ROOT / "scripts" / "ruby.sh", folder)
    for is_pure in ("", "1"):
        run("ruby", MEASURES / "measure.rb", work, PENDRATSOA_PURE=is_pure, RUBYLIB=str(folder / "lib"))


def node(work: pathlib.Path) -> None:
    shared.needs("node", "nodejs")
    folder = shutil.copytree(ROOT / "node", work / "node_modules" / "pendratsoa")
    quietly("sh", folder / "build.sh", work / "prefix")
    for name in ("measure.mjs", "peer.mjs", "forms.mjs", "messages.txt"):
        shutil.copyfile(MEASURES / name, work / name)
    run("node", work / "measure.mjs")
    quietly(sys.executable, "-B", ROOT / "scripts" / "wasm.py")
    other = shutil.copytree(folder, work / "node_modules" / "over_module")
    shutil.copyfile(ROOT / "crates/journal_ffi/out/wasm/pendratsoa.wasm", other / "build" / "pendratsoa.wasm")
    run("node", work / "forms.mjs", folder, other)


def go(work: pathlib.Path) -> None:
    if not (GO_PACKAGES / "src" / "google.golang.org" / "protobuf").is_dir():
        raise NotRun("there is no golang-google-protobuf-dev")
    sources = work / "path" / "src"
    peer = sources / "peer" / "pb"
    peer.mkdir(parents=True)
    (sources / "measure").mkdir()
    shutil.copytree(ROOT / "go", sources / "pendratsoa.dev" / "pendratsoa")
    shutil.copyfile(MEASURES / "measure.go", sources / "measure" / "main.go")
    (work / "peer.proto").write_text(shared.description())
    path = f"{work / 'path'}:{GO_PACKAGES}"
    env = {"GO111MODULE": "off", "GOFLAGS": "", "GOPATH": path, "GOCACHE": str(work / "cache")}
    run("go", "build", "-o", work / "protoc-gen-go", "google.golang.org/protobuf/cmd/protoc-gen-go", **env)
    words = [f"--go_out={peer}", "--go_opt=paths=source_relative", "--go_opt=Mpeer.proto=peer/pb", f"-I{work}"]
    run("protoc", *words, "peer.proto", **env, PATH=f"{work}:{os.environ['PATH']}")
    run("go", "build", "-o", work / "measure", "measure", **env)
    run(work / "measure", MEASURES / "messages.txt", **env)


def main(words: list[str]) -> int:
    shared.build(words)
    status = 0
    with tempfile.TemporaryDirectory() as folder:
        work = pathlib.Path(folder)
        prefix = work / "prefix"
        quietly("sh", ROOT / "scripts" / "install.sh", "--library", prefix)
        os.environ["PKG_CONFIG_PATH"] = str(prefix / "lib" / "pkgconfig")
        os.environ["PENDRATSOA_LIBRARY"] = str(prefix / "lib" / "libpendratsoa.so")
        os.environ["LD_LIBRARY_PATH"] = str(prefix / "lib")
        proto = ROOT / "proto"
        run("protoc", f"--python_out={work}", f"--ruby_out={work}", f"-I{proto}", "journal.proto", "options.proto")
        for language in (c, rust, python, ruby, node, go):
            try:
                language(work)
            except NotRun as why:
                print(f"languages.sh: {language.__name__}: not run, since {why}", flush=True)
            except subprocess.CalledProcessError as failed:
                print(f"languages.sh: {language.__name__}: failed: {failed}", flush=True)
                status = 1
    return status


if __name__ == "__main__":
    sys.exit(main(sys.argv[1:]))
