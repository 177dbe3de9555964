#!/usr/bin/env python3
"""Makes a Debian package of the programs and the library for C: scripts/package.sh [--arm64] [FOLDER]

The package is FOLDER/pendratsoa_VERSION_amd64.deb, by default in the current folder, and has what scripts/install.sh
installs, which is proved; with --arm64 it is that for arm64. The same tools make the same bytes of the same commit. It
needs what scripts/install.sh needs, and dpkg-deb and gzip.
"""
from __future__ import annotations

import email.utils
import hashlib
import os
import pathlib
import shutil
import subprocess
import sys
import tempfile

import linked
from machines import MACHINES, Machine

ROOT = pathlib.Path(__file__).resolve().parent.parent
MAINTAINER = "Pendratsoa maintainers <maintainers@users.noreply.pendratsoa.example>"
TOOLS = ("dpkg-deb", "gzip", "readelf")

COPYRIGHT = """\
Format: https://www.debian.org/doc/packaging-manuals/copyright-format/1.0/
Upstream-Name: pendratsoa

Files: *
Copyright: {holder}
License: Expat
{terms}
Comment: what is linked in from the toolchain, with its licences, is in linked.txt.gz
"""
CHANGELOG = """\
pendratsoa ({version}) unstable; urgency=medium

  * The changes are in CHANGELOG.md.

 -- {maintainer}  {date}
"""
# How a script begins that takes the first Python in the PATH.
FIRST_LINE = "#!/usr/bin/env python3\n"
OVERRIDES = """\
# one package has the library, what others are built with against it, and the programs
pendratsoa: package-name-doesnt-match-sonames libpendratsoa*
pendratsoa: link-to-shared-library-in-wrong-package *
"""
CONTROL = """\
Package: pendratsoa
Version: {version}
Architecture: {architecture}
Maintainer: {maintainer}
Installed-Size: {size}
Depends: libc6 (>= {glibc})
Recommends: python3
Section: utils
Priority: optional
Description: journal protocol of the Restate SDKs
 Programs that list a stream of the protocol, print it as JSON and say where
 two journals differ, and the protocol as a library for C: items of a stream,
 frames, payloads and their JSON, notifications, commands and journals
 compared. Each call is proved to do what its contract says.
{processor}"""
SSE = """\
 .
 It needs a processor that has SSE4.2.
"""


class NotMade(Exception):
    """Why there is no package."""


def run(*words: str | pathlib.Path, **env: str) -> str:
    """What a command prints; what it writes on the standard error is shown."""
    return subprocess.run(words, stdout=subprocess.PIPE, text=True, check=True, env={**os.environ, **env}).stdout


def seconds() -> str:
    """The date of the last commit, or of the changelog where there is no git."""
    if "SOURCE_DATE_EPOCH" in os.environ:
        return os.environ["SOURCE_DATE_EPOCH"]
    shown = subprocess.run(["git", "log", "-1", "--format=%ct"], capture_output=True, text=True)
    return shown.stdout.strip() if shown.returncode == 0 else str(int(pathlib.Path("CHANGELOG.md").stat().st_mtime))


def version() -> str:
    """The version of the library and the programs."""
    return pathlib.Path("VERSION").read_text().strip()


def write(file: pathlib.Path, text: str) -> None:
    file.parent.mkdir(parents=True, exist_ok=True)
    file.write_text(text)


def programs(usr: pathlib.Path) -> list[pathlib.Path]:
    """The programs, without the links to them."""
    return sorted(path for path in usr.glob("bin/*") if not path.is_symlink())


def shared_library(usr: pathlib.Path) -> pathlib.Path:
    """The shared library, without the links to it."""
    return next(path for path in sorted(usr.glob("lib/**/libpendratsoa.so.*")) if not path.is_symlink())


def strip(usr: pathlib.Path, machine: Machine) -> None:
    """Takes away the symbols that only a debugger reads."""
    run(f"{machine.tools}strip", "--strip-unneeded", *programs(usr), shared_library(usr))


def adapt(usr: pathlib.Path, machine: Machine) -> None:
    """Makes of what is installed what Debian has: no symbols that only a debugger reads, its own Python, completion
    where its zsh looks, and compressed pages."""
    strip(usr, machine)
    shared_library(usr).chmod(0o644)
    script = usr / "share/pendratsoa/view/make_page.py"
    text = script.read_text(encoding="utf-8")
    script.write_text(text.replace(FIRST_LINE, "#!/usr/bin/python3\n", 1), encoding="utf-8")
    (usr / "share/zsh/site-functions").rename(usr / "share/zsh/vendor-completions")
    run("gzip", "-9n", *sorted((usr / "share/man").glob("man?/*.[13]")))


def documents(usr: pathlib.Path, date: str) -> None:
    """Writes the license, the changelogs, and what lintian is not to say."""
    pages = usr / "share/doc/pendratsoa"
    lines = pathlib.Path("LICENSE").read_text().splitlines()
    at = next(number for number, line in enumerate(lines) if line.startswith("Copyright (c) "))
    terms = "\n".join(f" {line}" for line in lines[at + 1:] if line)
    write(pages / "copyright", COPYRIGHT.format(holder=lines[at].removeprefix("Copyright (c) "), terms=terms))
    shutil.copyfile("CHANGELOG.md", pages / "CHANGELOG.md")
    written = email.utils.formatdate(int(date)).replace("-0000", "+0000")
    write(pages / "changelog", CHANGELOG.format(version=version(), maintainer=MAINTAINER, date=written))
    write(pages / "linked.txt", linked.page(linked.linked(["journal", "journal_list", "journal_ffi"])))
    run("gzip", "-9n", pages / "CHANGELOG.md", pages / "changelog", pages / "linked.txt")
    write(usr / "share/lintian/overrides/pendratsoa", OVERRIDES)


def kibibytes(folder: pathlib.Path) -> int:
    """The size that is installed, as Debian counts it: files in whole KiB, and one KiB for each folder and each link.
    What a folder takes differs from one file system to another."""
    paths = [folder, *folder.rglob("*")]
    return sum(-(-path.stat().st_size // 1024) if path.is_file() and not path.is_symlink() else 1 for path in paths)


def describe(root: pathlib.Path, machine: Machine) -> None:
    """Writes what dpkg reads of the package, with the latest version of the C library that a symbol of it has."""
    usr, debian = root / "usr", root / "DEBIAN"
    said = {
        "version": version(),
        "maintainer": MAINTAINER,
        "architecture": machine.debian,
        "size": str(kibibytes(usr)),
        "glibc": machine.glibc(*programs(usr), shared_library(usr)),
        "processor": "" if machine.tools else SSE,
    }
    write(debian / "control", CONTROL.format(**said))
    write(debian / "shlibs", f"libpendratsoa {version().split('.')[0]} pendratsoa (>= {version()})\n")
    write(debian / "triggers", "activate-noawait ldconfig\n")
    files = sorted((file for file in usr.rglob("*") if file.is_file() and not file.is_symlink()), key=str)
    sums = [f"{hashlib.md5(file.read_bytes()).hexdigest()}  {file.relative_to(root)}\n" for file in files]
    write(debian / "md5sums", "".join(sums))


def installed(machine: Machine, *words: str, **env: str) -> None:
    """Installs for a machine; the first time what is not proved is proved."""
    try:
        run("sh", "scripts/install.sh", *machine.words(), *words, **env)
    except subprocess.CalledProcessError:
        raise NotMade("scripts/install.sh failed") from None


def needs(*tools: str) -> None:
    """Ends where a tool is absent."""
    for tool in tools:
        if not shutil.which(tool):
            raise NotMade(f"there is no {tool}")


def make(folder: pathlib.Path, work: pathlib.Path, machine: Machine) -> pathlib.Path:
    """Makes the package in a folder, and returns where it is."""
    needs(*TOOLS, f"{machine.tools}strip")
    date = seconds()
    root = work / "root"
    installed(machine, "--libdir", f"lib/{machine.triplet}", "/usr", DESTDIR=str(root))
    adapt(root / "usr", machine)
    documents(root / "usr", date)
    describe(root, machine)
    package = folder / f"pendratsoa_{version()}_{machine.debian}.deb"
    try:
        run("dpkg-deb", "--root-owner-group", "--build", root, package, SOURCE_DATE_EPOCH=date)
    except subprocess.CalledProcessError:
        raise NotMade("dpkg-deb failed") from None
    return package


def main(words: list[str]) -> int:
    if words == ["--help"]:
        print(__doc__.strip())
        return 0
    machine = MACHINES[words[:1] == ["--arm64"]]
    rest = words[1:] if words[:1] == ["--arm64"] else words
    word = rest[0] if rest else "."
    if len(rest) > 1 or word == "" or word.startswith("-"):
        print("usage: package.sh [--arm64] [FOLDER]", file=sys.stderr)
        return 2
    folder = pathlib.Path(word).resolve()
    os.umask(0o022)
    try:
        if not folder.is_dir():
            raise NotMade(f"there is no folder {word}")
        os.chdir(ROOT)
        with tempfile.TemporaryDirectory() as work:
            print(f"package.sh: made {make(folder, pathlib.Path(work), machine)}")
    except NotMade as why:
        print(f"package.sh: nothing is made, since {why}", file=sys.stderr)
        return 2
    return 0


if __name__ == "__main__":
    sys.exit(main(sys.argv[1:]))
