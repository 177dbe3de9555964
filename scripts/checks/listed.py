"""Whether each file of a release has a row on the pages that list them, and is in the list of what is within, with what
it links; and what is in a file."""
from __future__ import annotations

import base64
import collections.abc
import hashlib
import io
import json
import pathlib
import posixpath
import re
import tarfile
import zipfile

import checks
import linked

# The headings of the tables that have the files of a release, by their pages; the first one is in the tarball.
README = pathlib.Path("scripts/release/README.md")
TABLES = {README: "Files of the same release", pathlib.Path("docs/RELEASING.md"): "The files"}

# What is written in place of a part of a name.
PARTS = {
    "VERSION": re.escape(checks.library_version()),
    "MACHINE": "(x86_64|aarch64)",
    "ARCHITECTURE": "(amd64|arm64)",
    r"\*": ".*",
}


def rows(page: pathlib.Path) -> dict[str, str]:
    """The names of files in the first column of the table of a page, each with its pattern."""
    section = page.read_text(encoding="utf-8").partition(f"\n## {TABLES[page]}\n")[2].partition("\n## ")[0]
    firsts = re.findall(r"^\| (`.*?) \| ", section, re.MULTILINE)
    names = [name for first in firsts for name in first.split("`")[1::2] if not name.startswith("--")]
    found = {name: re.escape(name) for name in names}
    for part, pattern in PARTS.items():
        found = {name: text.replace(part, pattern) for name, text in found.items()}
    return found


def named(check: checks.Check, folder: pathlib.Path, not_made: collections.abc.Collection[str]) -> None:
    """Each file of the release has one row on the pages that list them, and each row has a file, except those of files
    that are not made."""
    for page in TABLES:
        patterns = rows(page)
        for file in sorted(folder.iterdir()):
            found = [name for name, pattern in patterns.items() if re.fullmatch(pattern, file.name)]
            check.case(f"{page} has a row for {file.name}", len(found) == 1, found)
        for name, pattern in patterns.items():
            found = [file.name for file in folder.iterdir() if re.fullmatch(pattern, file.name)]
            is_made = not any(re.fullmatch(pattern, other) for other in not_made)
            check.case(f"{page}: files that are {name}", bool(found) == is_made, found)


def parts_of(names: collections.abc.Collection[str]) -> list[str]:
    """The crates of this repository that a file of the release has, compiled, by the names of what is in it."""
    programs = [name for name in ("journal", "journal_list") if any(path.endswith(f"bin/{name}") for path in names)]
    has_library = any(re.search(r"libpendratsoa\.(a|so)|\.wasm$", path) for path in names)
    return [*programs, *(["journal_ffi"] if has_library else [])]


def within(check: checks.Check, folder: pathlib.Path) -> None:
    """The list of what is within has each file with its checksum, and links into it what its programs and its library
    link, and nothing else."""
    place = folder / f"pendratsoa-{checks.library_version()}.spdx.json"
    document = json.loads(place.read_text())
    packages = {each["SPDXID"]: each for each in document["packages"]}
    files = {each["name"]: each for each in packages.values() if "packageFileName" in each}
    wanted = [file.name for file in sorted(folder.iterdir()) if file.name not in (place.name, "SHA256SUMS")]
    check.same("the files of the SPDX list", wanted, sorted(files))
    links = [(each["spdxElementId"], each["relatedSpdxElement"]) for each in document["relationships"]
             if each["relationshipType"] == "STATIC_LINK"]
    crates = {id for id, each in packages.items() if "packageFileName" not in each}
    check.same("what the SPDX list links", sorted(crates), sorted({crate for _, crate in links}))
    kinds = set()
    for name, each in files.items():
        digest = hashlib.sha256((folder / name).read_bytes()).hexdigest()
        sums = [one["checksumValue"] for one in each["checksums"]]
        check.case(f"the checksum of {name} in the SPDX list", sums == [digest], sums)
        inside = contents(folder / name)
        parts = parts_of(inside)
        kinds.add(len(parts))
        linked_in = [f"toolchain/{crate.name}" for crate in linked.linked(parts)] if parts else []
        found = sorted(packages[crate]["name"] for file, crate in links if packages[file]["name"] == name)
        check.case(f"what {name} links by the SPDX list", found == linked_in, f"{found}, and not {linked_in}")
        for page in (text.decode() for path, text in inside.items() if posixpath.basename(path) == "LINKED.txt"):
            crates_of = re.findall(r"^(\w+): ", page.partition("\n====")[0].partition("\n\n")[2], re.MULTILINE)
            check.same(f"LINKED.txt of {name}", linked_in, [f"toolchain/{crate}" for crate in crates_of])
    check.case("files have the programs, the library, and neither", kinds == {0, 1, 3}, kinds)


def contents(package: pathlib.Path) -> dict[str, bytes]:
    """The files in a file of the release, by their paths in it. The README of a wheel is in its metadata, and a module
    is within the text of a page."""
    if package.suffix == ".html":
        module = re.search(rb"AGFzbQ[\w+/=]+", package.read_bytes())
        return {"pendratsoa.wasm": base64.b64decode(module[0])} if module else {}
    if package.suffix not in (".whl", ".gem", ".tgz", ".gz", ".deb"):
        return {}
    if package.suffix == ".whl":
        with zipfile.ZipFile(package) as packed:
            found = {name: packed.read(name) for name in packed.namelist()}
        metadata = next(name for name in found if name.endswith(".dist-info/METADATA"))
        return {**found, "README.md": found[metadata].partition(b"\n\n")[2]}
    if package.suffix == ".deb":
        data = checks.run(["dpkg-deb", "--fsys-tarfile", package]).out
    else:
        data = package.read_bytes()
    if package.suffix == ".gem":
        with tarfile.open(fileobj=io.BytesIO(data)) as outer:
            data = outer.extractfile("data.tar.gz").read()
    with tarfile.open(fileobj=io.BytesIO(data)) as packed:
        found = {entry.name: packed.extractfile(entry).read() for entry in packed if entry.isreg()}
    if package.suffix == ".gem":
        return found
    # all is below one folder
    return {name.partition("/")[2]: text for name, text in found.items()}
