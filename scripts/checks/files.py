#!/usr/bin/env python3
"""A release for this processor: each stage has a line; the tarball is installed, used, removed; the packages' pages
lead to files; each file is on the pages and in the list of what is within; the checksums are signed.

It takes the proved programs and library, and installs the tarball below a folder. A browser opens the page, if it is
there. Wrong words are rejected. What needs other compilers, another processor or a bare system is in release.py, which
is run before a release.
"""
from __future__ import annotations

import os
import pathlib
import posixpath
import re

import checks
import listed
import release
import released_pages
import uses

# What is made, each with a stage of its own; the check reference makes the pages.
KINDS = ("wheel", "gem", "npm", "page", "deb", "tarball", "rust", "go_module")

# The rows of files that are not made here.
NOT_MADE = (released_pages.ARCHIVE, "SHA256SUMS.minisig")


def used(check: checks.Check, folder: pathlib.Path) -> None:
    """The tarball is installed below a folder, its programs print what they should, and it leaves nothing."""
    name = f"pendratsoa-{release.VERSION}-linux-x86_64"
    check.command("tar", ["tar", "-xf", folder / f"{name}.tar.gz", "-C", check.work])
    script, prefix = check.work / name / "install.sh", check.work / "prefix"
    check.command("install.sh", ["sh", script, prefix])
    top = check.work / "top"
    top.mkdir()
    (top / "examples").symlink_to(checks.ROOT / "examples")

    def run(words: list[str], given: bytes) -> checks.Run:
        program, *others = words
        place = prefix / "bin" / program if program in uses.INSTALLED else program
        return checks.run([place, *others], given, cwd=top, env={"PATH": os.environ["PATH"]})

    uses.programs(check, "installed", top, run)
    installed = checks.names_below(prefix)
    programs = [name.removeprefix("bin/") for name in installed if name.startswith("bin/")]
    check.same("the programs that are installed", sorted(uses.INSTALLED), programs)
    folders = re.findall(r"`PREFIX/([\w/-]+)`", listed.README.read_text(encoding="utf-8"))
    absent = [name for name in installed if not any(name.startswith(f"{folder}/") for folder in folders)]
    check.case(f"{listed.README} has a row for what is installed", not absent, absent)
    empty = [folder for folder in folders if not any(name.startswith(f"{folder}/") for name in installed)]
    check.case(f"{listed.README} has no other row", not empty, empty)
    check.command("install.sh --uninstall", ["sh", script, "--uninstall", prefix])
    left = checks.names_below(prefix) if prefix.exists() else []
    check.case("install.sh --uninstall leaves nothing", not left, left)


# The packages, by what their files match.
PACKAGES = ("*.whl", "*.gem", "pendratsoa-*.tgz", "pendratsoa-rust-*.tar.gz", "pendratsoa-go-*.tar.gz")


def dead(page: str, text: str, names: set[str]) -> list[str]:
    """What a page of a package links to, or names as a page of the archive, that neither of the two has."""
    plain = re.sub(r"^```.*?^```$", "", text, flags=re.MULTILINE | re.DOTALL)
    archived = {released_pages.archived(path) for path in released_pages.named()}
    archived |= {posixpath.dirname(path) for path in archived}
    linked = re.findall(r"\]\(([^)#: ]+)[)#]", re.sub("`[^`]*`", "", plain))
    found = [link for link in linked if posixpath.normpath(posixpath.join(posixpath.dirname(page), link)) not in names]
    folders = "|".join(sorted({path.partition("/")[0] for path in archived}))
    paths = re.findall(rf"`((?:{folders})/[\w./-]+)`", plain)
    return found + [path for path in paths if path not in archived | names]


def lead(check: checks.Check, folder: pathlib.Path) -> None:
    """What the READMEs of packages link to is in the package, or in the archive of pages."""
    for pattern in PACKAGES:
        packages = sorted(folder.glob(pattern))
        check.case(f"one package is {pattern}", len(packages) == 1, packages)
        for package in packages:
            files = listed.contents(package)
            found = [name for name in files if posixpath.basename(name) == "README.md"]
            check.case(f"{package.name} has a README", "README.md" in found, sorted(files))
            for page in found:
                wrong = dead(page, files[page].decode(), set(files))
                check.case(f"what {page} of {package.name} links to", not wrong, wrong)


def main(check: checks.Check) -> None:
    for name in checks.PROGRAMS:
        check.program(name)
    check.static_library()
    release.rejected(check)
    folder, said = release.made(check, "x86_64", KINDS)
    for kind in KINDS:
        check.case(f"release.sh says that it makes {kind}", f"release.sh: {kind} for x86_64\n" in said, said)
    used(check, folder)
    listed.named(check, folder, NOT_MADE)
    listed.within(check, folder)
    lead(check, folder)
    uses.opened(check, folder / "journal_view.html")
    release.signed(check)


if __name__ == "__main__":
    checks.perform(main)
