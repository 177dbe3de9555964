#!/usr/bin/env python3
"""The Debian package: it has what is installed, its programs run, and lintian finds nothing.

scripts/package.sh makes it twice, with the same bytes, of what is proved already; it is unpacked and not installed.
"""
from __future__ import annotations

import os
import pathlib

import checks

STREAMS = pathlib.Path("examples/streams")
LIBRARIES = pathlib.Path("usr/lib/x86_64-linux-gnu")


def words(check: checks.Check) -> None:
    """Wrong words are rejected with a line on the standard error; --help tells what there is."""
    for given in (["nothing"], ["--halp"], [".", "."]):
        ended = checks.run(["sh", "scripts/package.sh", *given])
        check.case(f"package.sh {' '.join(given)}", ended.status == 2 and ended.err.count(b"\n") == 1, ended)
    ended = checks.run(["sh", "scripts/package.sh", "--help"])
    check.case("package.sh --help", ended.status == 0 and b"package.sh [--arm64] [FOLDER]" in ended.out, ended)


def made(check: checks.Check) -> pathlib.Path:
    """The package, which has the same bytes when it is made again."""
    name = f"pendratsoa_{checks.library_version()}_amd64.deb"
    packages = [check.work / folder / name for folder in ("once", "again")]
    for package in packages:
        package.parent.mkdir()
        check.command(f"package.sh {package.parent.name}", ["sh", "scripts/package.sh", package.parent])
        check.stop_if_failed()
    once, again = (package.read_bytes() for package in packages)
    check.case("the package, made again", once == again)
    return packages[0]


def contents(check: checks.Check, package: pathlib.Path, root: pathlib.Path) -> None:
    """All that is installed is there, by its place: pages are compressed, and zsh looks elsewhere."""
    check.command("dpkg-deb --extract", ["dpkg-deb", "--extract", package, root])
    installed = check.work / "installed"
    words = ["sh", "scripts/install.sh", "--libdir", "lib/x86_64-linux-gnu", "/usr"]
    check.command("install.sh", words, env={**os.environ, "DESTDIR": str(installed)})
    expected = [f"{name}.gz" if "/man/" in name else name for name in checks.names_below(installed)]
    expected = sorted(name.replace("/zsh/site-functions/", "/zsh/vendor-completions/") for name in expected)
    names = [name for name in checks.names_below(root) if "/doc/" not in name and "/lintian/" not in name]
    check.same("what is in the package", expected, names)
    dangling = [name for name in checks.names_below(root) if not (root / name).exists()]
    check.case("each link leads somewhere", not dangling, dangling)


def programs(check: checks.Check, root: pathlib.Path) -> None:
    """Programs of the package, and one that is built with its library."""
    stream, dump = STREAMS / "replay", STREAMS / "replay.dump"
    for program, given, made in (("journal_dump", stream, dump), ("journal_make", dump, stream)):
        ended = checks.run([root / "usr/bin" / program, given])
        check.case(f"{program} of the package", ended == checks.Run(0, made.read_bytes(), b""), ended)
    library = root / LIBRARIES / "libpendratsoa.so"
    listing = check.work / "listing"
    name = "a program with the library of the package"
    words = ["cc", "-I", root / "usr/include", "examples/c/listing.c", library, "-o", listing]
    if check.command(f"cc, {name}", words):
        env = {**os.environ, "LD_LIBRARY_PATH": str(root / LIBRARIES)}
        ended = checks.run([listing], stream.read_bytes(), env=env)
        check.case(name, ended == checks.Run(0, (STREAMS / "replay.stdout").read_bytes(), b""), ended)


def main(check: checks.Check) -> None:
    check.needs("dpkg-deb", "dpkg")
    for name in checks.PROGRAMS:
        check.program(name)
    check.static_library()
    words(check)
    package = made(check)
    root = check.work / "root"
    contents(check, package, root)
    programs(check, root)
    if check.has("lintian", "what lintian finds"):
        ended = checks.run(["lintian", "--allow-root", package])
        check.case("lintian", ended.status == 0 and not ended.out, ended)


if __name__ == "__main__":
    checks.perform(main)
