#!/usr/bin/env python3
"""Makes the files of a release, of what is proved: scripts/release.sh [OPTION..] FOLDER

    FOLDER             where the files are made; it is made too, and has nothing in it
    --gate FILE        what sh scripts/test.sh has printed over this commit: PROVED has its last line
    --systems FILE     likewise, what sh scripts/check.sh before_release has printed
    --machine NAME     only for this processor, x86_64 or aarch64
    --only KIND        only files of this kind; it may be given several times; --list lists the kinds
    --sign KEY         also SHA256SUMS.minisig, a signature of the checksums by this secret key of minisign
    --draft            also of changes that are not committed, which PROVED then says

The files are listed by --list. Next to them are PROVED, which tells what is proved and what is trusted, a list of what
is within (SPDX) and SHA256SUMS. The same commit has the same bytes in any folder and on any day, made by the same
tools. What is not proved yet is proved first, in more than an hour; docs/RELEASING.md has what is run before a release.
On the standard error is one line per stage, before it begins.
"""
from __future__ import annotations

import argparse
import collections.abc
import datetime
import gzip
import hashlib
import io
import json
import os
import pathlib
import re
import shutil
import subprocess
import sys
import tarfile
import tempfile
import uuid
import zipfile

import linked
import package
import released_pages
from machines import MACHINES, Machine
from package import NotMade, needs, run, version

ROOT = pathlib.Path(__file__).resolve().parent.parent
DESCRIPTION = "pendratsoa, the journal protocol of the Restate SDKs"

# The crates that are compiled into files, and which of them a file has.
PROGRAMS = ("journal", "journal_list")
LIBRARY = "journal_ffi"
Compiled = dict[pathlib.Path, tuple[str, ...]]

# What of a package stays in the repository: tests, and what is for git.
TESTS = re.compile(r"(^|/)(tests?/|\.)|_test\.go$")

# What takes the place of go/link.go: the library is that of the release.
LINK_GO = """\
package pendratsoa

// The static library of the release is linked.

/*
#cgo CFLAGS: -I${SRCDIR}/include
%s
*/
import "C"
"""

PROVED = """\
# pendratsoa {version}: what is proved

| | |
|---|---|
| Commit | {commit} |
| Toolchain | {toolchain} |
| The gate, `sh scripts/test.sh` | {gate} |
| Other systems, `sh scripts/check.sh before_release` | {systems} |

Each program and each call of the library is proved to do what its contract says; docs/PROOFS.md of that commit names
the clause of each promise, and the programs and `journal_ffi` are proved for either processor. The packages for
Python, Ruby, Node, Rust and Go make those calls, and are tested.

The WebAssembly module of the package for Node is compiled of `journal_ffi` as it is proved for x86-64. It is not proved
for WebAssembly: what is between the two, and how that is tested, is below.

## Needs

{needs}
## What was not run of these

{not_run}
## What is trusted
"""


def tell(text: str) -> None:
    """Says which stage begins."""
    print(f"release.sh: {text}", file=sys.stderr, flush=True)


class Release:
    """What all files of a release are made of, in a folder of its own."""

    def __init__(self, work: pathlib.Path, options: argparse.Namespace):
        said = {"commit": commit(options.draft), **results(options)}
        self.work = work
        self.out = pathlib.Path(options.folder).resolve()
        self.date = int(package.seconds())
        self.machines = [each for each in MACHINES if options.machine in (None, each.name)]
        licence, of_library = pathlib.Path("LICENSE").read_text(), linked.page(linked.linked([LIBRARY]), "the library")
        self.licences = {"LICENSE": licence, "LINKED.txt": linked.page(linked.linked([*PROGRAMS, LIBRARY]))}
        # those of the packages, which have no programs
        self.library_licences = {"LICENSE": licence, "LINKED.txt": of_library}
        self.prefixes = {machine.name: self.installed(machine) for machine in self.machines}
        self.proved = PROVED.format(**said, **self.made_with()) + trusted()

    def installed(self, machine: Machine) -> pathlib.Path:
        """A folder below which the library, and the programs, for a machine are installed."""
        tell(f"the programs and the library for {machine.name}: built where they are not up to date, and installed")
        prefix = self.work / machine.name
        package.installed(machine, str(prefix))
        package.strip(prefix, machine)
        return prefix

    def made_with(self) -> dict[str, str]:
        """What is made by which toolchain, and what it needs where it runs."""
        lines = []
        for machine in self.machines:
            prefix = self.prefixes[machine.name]
            library, programs = package.shared_library(prefix), package.programs(prefix)
            processor = "" if machine.tools else ", and a processor with SSE4.2"
            lines.append(
                f"- {machine.name}: the library glibc {machine.glibc(library)}, the programs "
                f"{machine.glibc(*programs)}, or later{processor}\n"
            )
        return {"version": version(), "toolchain": run("rt", "version").strip(), "needs": "".join(lines)}

    def copy(self, folder: str, name: str | None = None) -> pathlib.Path:
        """A copy of a package, a folder of the repository, without its tests, and with the licences. Its README names
        what is outside of the folder by the path in the archive of pages."""
        target = self.work / (name or folder)
        listed = run("git", "ls-files", "-z", "--cached", "--others", "--exclude-standard", "--", folder)
        for file in filter(os.path.isfile, listed.split("\0")):
            inside = os.path.relpath(file, folder)
            if not TESTS.search(inside):
                (target / inside).parent.mkdir(parents=True, exist_ok=True)
                shutil.copyfile(file, target / inside)
        for page in target.rglob("README.md"):
            path = f"{folder}/{page.relative_to(target)}"
            page.write_text(released_pages.released(folder, path, page.read_text()))
        for file, text in self.library_licences.items():
            package.write(target / file, text)
        return target

    def archive(self, folder: pathlib.Path, name: str, top: str | None = None) -> None:
        """A .tar.gz of what is in a folder, below the folder `top`: in order, with no owner, of one date."""
        top = name.removesuffix(".tar.gz") if top is None else top
        packed = io.BytesIO()
        with tarfile.open(fileobj=packed, mode="w", format=tarfile.USTAR_FORMAT) as tar:
            for path in sorted([folder, *folder.rglob("*")], key=str):
                entry = tar.gettarinfo(path, arcname=f"{top}/{path.relative_to(folder)}".removesuffix("/."))
                entry.mode = 0o755 if path.is_dir() or entry.mode & 0o100 else 0o644
                entry.uid = entry.gid = 0
                entry.uname = entry.gname = ""
                entry.mtime = self.date
                with path.open("rb") if entry.isreg() else io.BytesIO() as file:
                    tar.addfile(entry, file)
        (self.out / name).write_bytes(gzip.compress(packed.getvalue(), 9, mtime=0))


def tarball(release: Release, machine: Machine) -> None:
    """The programs and the library, for any Linux with glibc: unpack it, and run its install.sh."""
    prefix = release.prefixes[machine.name]
    folder = prefix / "share/doc/pendratsoa"
    changes = pathlib.Path("CHANGELOG.md").read_text()
    for file, text in {**release.licences, "CHANGELOG.md": changes, "PROVED": release.proved}.items():
        package.write(folder / file, text)
    files = [path.relative_to(prefix) for path in prefix.rglob("*") if path.is_symlink() or not path.is_dir()]
    package.write(prefix / "FILES", "".join(sorted(f"{file}\n" for file in files)))
    package.write(prefix / "VERSION", f"{version()}\n")
    for file in ("install.sh", "README.md"):
        shutil.copyfile(ROOT / "scripts/release" / file, prefix / file)
    release.archive(prefix, f"pendratsoa-{version()}-linux-{machine.name}.tar.gz")


def deb(release: Release, machine: Machine) -> None:
    """The Debian package, of the programs and the library."""
    work = release.work / f"deb-{machine.name}"
    work.mkdir()
    package.make(release.out, work, machine)


def wheel(release: Release, machine: Machine) -> None:
    """The wheel for Python, with the library and the compiled module in it."""
    library = package.shared_library(release.prefixes[machine.name])
    folder = release.copy("python", f"python-{machine.name}")
    # older tags than this one are names of their own
    minor = max(17, int(machine.glibc(library).split(".")[1]))
    compiler = (
        {"CC": f"{machine.tools}gcc", "CFLAGS": f"-I{cpython_headers(release, machine)}"} if machine.tools else {}
    )
    words = ("scripts/python.sh", folder, library, f"manylinux_2_{minor}_{machine.name}")
    run("sh", *words, PYTHONDONTWRITEBYTECODE="1", **compiler)
    made = list(folder.glob("dist/*.whl"))
    if not made:
        raise NotMade("no python3 has pip, setuptools and wheel")
    with zipfile.ZipFile(made[0]) as packed:
        if "pendratsoa/_compiled.abi3.so" not in packed.namelist():
            raise NotMade("there are no headers of CPython, which Debian's python3-dev has")
    shutil.copyfile(made[0], release.out / made[0].name)


def cpython_headers(release: Release, machine: Machine) -> pathlib.Path:
    """A folder where the headers of Debian's CPython find the one that is of a processor. For what the module takes of
    it that of this one will do: both have the same sizes, and the stable interface of CPython asks for no more."""
    folder = release.work / "headers"
    for header in pathlib.Path("/usr/include").glob(f"{MACHINES[0].triplet}/python3.*/pyconfig.h"):
        target = folder / machine.triplet / header.parent.name / header.name
        target.parent.mkdir(parents=True, exist_ok=True)
        shutil.copyfile(header, target)
    return folder


def gem(release: Release, machine: Machine) -> None:
    """The gem for Ruby, with the library in it, and the compiled module for Debian's Ruby."""
    needs("gem")
    folder = release.copy("ruby", f"ruby-{machine.name}")
    shutil.copyfile(package.shared_library(release.prefixes[machine.name]), folder / "lib/pendratsoa/libpendratsoa.so")
    said = run("sh", "scripts/ruby.sh", folder, **({"CC": f"{machine.tools}gcc"} if machine.tools else {}))
    if not list(folder.glob("lib/pendratsoa/*/compiled.so")):
        raise NotMade(said.partition("since ")[2].strip())
    subprocess.run(["gem", "build", "--silent", "pendratsoa.gemspec"], cwd=folder, check=True)
    made = next(folder.glob("*.gem"))
    shutil.copyfile(made, release.out / made.name)


def npm(release: Release) -> None:
    """The package for Node and TypeScript, for any machine: the WebAssembly module, and an addon for each processor."""
    folder = release.copy("node")
    for machine in release.machines:
        run("sh", folder / "build.sh", release.prefixes[machine.name], CC=f"{machine.tools}gcc")
        addon = folder / f"build/linux-{machine.node}/pendratsoa.node"
        addon.parent.mkdir()
        (folder / "build/pendratsoa.node").rename(addon)
        run(f"{machine.tools}strip", "--strip-unneeded", addon)
    shutil.copyfile(wasm_module(), folder / "build/pendratsoa.wasm")
    # what npm takes of a package: what it lists, and these
    description = json.loads((folder / "package.json").read_text())
    packed = release.work / "npm"
    for name in ["README.md", *release.library_licences, *description["files"]]:
        (packed / name).parent.mkdir(parents=True, exist_ok=True)
        (folder / name).rename(packed / name)
    del description["scripts"]
    package.write(packed / "package.json", json.dumps(description, indent=2) + "\n")
    release.archive(packed, f"pendratsoa-{version()}.tgz", "package")


def page(release: Release) -> None:
    """The page that opens journals, with the module in it."""
    run(sys.executable, "-B", "view/make_opener.py", wasm_module(), release.out / "journal_view.html")


def wasm_module() -> pathlib.Path:
    """The WebAssembly module, which is built where it is not up to date."""
    run(sys.executable, "-B", "scripts/wasm.py")
    return ROOT / "crates/journal_ffi/out/wasm/pendratsoa.wasm"


def rust(release: Release) -> None:
    """The crate for Rust in source, with the static library, which it links."""
    folder = release.copy("rust")
    # its tests stay in the repository
    manifest = folder / "Cargo.toml"
    manifest.write_text(manifest.read_text().partition("\n[[test]]")[0])
    for machine in release.machines:
        library = folder / "lib" / machine.target / "libpendratsoa.a"
        library.parent.mkdir(parents=True)
        shutil.copyfile(release.prefixes[machine.name] / "lib/libpendratsoa.a", library)
    release.archive(folder, f"pendratsoa-rust-{version()}.tar.gz")


def go_module(release: Release) -> None:
    """The package for Go in source, with the static library, which it links."""
    folder = release.copy("go")
    shutil.copytree(release.prefixes[release.machines[0].name] / "include", folder / "include")
    flags = []
    for machine in release.machines:
        library = folder / "lib" / f"linux_{machine.go}" / "libpendratsoa.a"
        library.parent.mkdir(parents=True)
        shutil.copyfile(release.prefixes[machine.name] / "lib/libpendratsoa.a", library)
        flags.append(f"#cgo linux,{machine.go} LDFLAGS: ${{SRCDIR}}/{library.relative_to(folder)}")
    package.write(folder / "link.go", LINK_GO % "\n".join(flags))
    release.archive(folder, f"pendratsoa-go-{version()}.tar.gz")


def reference(release: Release) -> None:
    """The reference pages of all languages, and the pages that the packages name, as one archive."""
    folder = release.work / "reference"
    run("sh", "scripts/reference.sh", folder)
    absent = [name for name in run("sh", "scripts/reference.sh", "--list").split() if not (folder / name).is_dir()]
    if absent:
        raise NotMade(f"there are no tools for the reference pages of {', '.join(absent)}")
    release.archive(folder, released_pages.ARCHIVE)


# The kinds of files: those that are made for each processor, in an order in which none takes in what another adds, and
# those that have the library for all.
FOR_EACH = (wheel, gem, deb, tarball)
FOR_ALL = (npm, page, rust, go_module, reference)

# The crates of this repository that are compiled into the files of a kind, if that is not the library.
COMPILED = {deb: (*PROGRAMS, LIBRARY), tarball: (*PROGRAMS, LIBRARY), reference: ()}


def results(options: argparse.Namespace) -> dict[str, str]:
    """What the outputs of the gate and of the checks on other systems say at their ends, in which no case has failed,
    and what they did not run."""
    found: dict[str, str] = {}
    not_run: set[str] = set()
    for name, file in (("gate", options.gate), ("systems", options.systems)):
        if not file:
            found[name] = "its result was not given"
            not_run.add(f"- {name}: not known\n")
            continue
        lines = pathlib.Path(file).read_text(errors="replace").splitlines()
        last = lines[-1] if lines else ""
        if not re.fullmatch(r"\d+ passed, 0 failed", last):
            raise NotMade(f"the last line of {file} is '{last}', and not 'N passed, 0 failed'")
        found[name] = last
        not_run |= {f"- {line}\n" for line in lines if "not run, since" in line}
    return {**found, "not_run": "".join(sorted(not_run)) or "- nothing\n"}


def trusted() -> str:
    """What is trusted, as the page on what is proved says."""
    return pathlib.Path("docs/PROOFS.md").read_text().partition("\n## What is trusted\n")[2].partition("\n## ")[0]


def commit(is_draft: bool) -> str:
    """The commit that is checked out. What is not committed is in no release."""
    try:
        name = run("git", "rev-parse", "HEAD").strip()
        changed = run("git", "status", "--porcelain")
    except (OSError, subprocess.CalledProcessError):
        raise NotMade("this is no checkout of a commit") from None
    if changed and not is_draft:
        raise NotMade("there are changes that are not committed; with --draft it is made all the same")
    return f"{name}, with changes that are not committed: a draft" if changed else name


def contents(release: Release, compiled: Compiled) -> str:
    """The list of what is within, as SPDX has it: of each file what the crates link that are compiled into it."""
    created = datetime.datetime.fromtimestamp(release.date, datetime.timezone.utc).strftime("%Y-%m-%dT%H:%M:%SZ")
    sums = {file.name: hashlib.sha256(file.read_bytes()).hexdigest() for file in sorted(compiled)}

    def described(name: str, licence: str, **more: object) -> dict[str, object]:
        return {
            "SPDXID": spdx_name(name),
            "name": name,
            "downloadLocation": "NOASSERTION",
            "filesAnalyzed": False,
            "licenseConcluded": licence,
            "licenseDeclared": licence,
            "copyrightText": "NOASSERTION",
            **more,
        }

    packages = [
        described(name, "MIT", versionInfo=version(), packageFileName=name,
                  checksums=[{"algorithm": "SHA256", "checksumValue": value}])
        for name, value in sums.items()
    ]
    links = [(file.name, each) for file, parts in sorted(compiled.items()) if parts for each in linked.linked([*parts])]
    licences = {f"toolchain/{each.name}": each.expression() for _, each in links}
    packages += [described(name, licences[name]) for name in sorted(licences)]
    relations = [("SPDXRef-DOCUMENT", "DESCRIBES", spdx_name(name)) for name in sums]
    relations += [(spdx_name(file), "STATIC_LINK", spdx_name(f"toolchain/{each.name}")) for file, each in links]
    text = "\n".join(f"{name} {value}" for name, value in sums.items())
    return json.dumps({
        "spdxVersion": "SPDX-2.3",
        "dataLicense": "CC0-1.0",
        "SPDXID": "SPDXRef-DOCUMENT",
        "name": f"pendratsoa-{version()}",
        "documentNamespace": f"urn:uuid:{uuid.uuid5(uuid.NAMESPACE_OID, text)}",
        "comment": DESCRIPTION,
        "creationInfo": {"created": created, "creators": ["Tool: scripts/release.sh"]},
        "packages": packages,
        "relationships": [
            {"spdxElementId": one, "relationshipType": kind, "relatedSpdxElement": other}
            for one, kind, other in relations
        ],
    }, indent=1) + "\n"


def spdx_name(name: str) -> str:
    return "SPDXRef-" + re.sub(r"[^A-Za-z0-9.-]", "-", name)


def make(options: argparse.Namespace, work: pathlib.Path) -> list[pathlib.Path]:
    """Makes the files, and returns where they are."""
    needs("rt", "readelf", "strip")
    out = pathlib.Path(options.folder)
    if out.exists() and (not out.is_dir() or any(out.iterdir())):
        raise NotMade(f"{out} is there, and is no empty folder")
    if options.sign:
        needs("minisign")
    release = Release(work, options)
    out.mkdir(parents=True, exist_ok=True)
    os.environ["SOURCE_DATE_EPOCH"] = str(release.date)
    compiled: Compiled = {}

    def add(kind: collections.abc.Callable[..., None], *machine: Machine) -> None:
        if wanted(kind, options):
            tell(f"{kind.__name__} for {', '.join(each.name for each in machine or release.machines)}")
            kind(release, *machine)
            new = set(release.out.iterdir()) - compiled.keys()
            compiled.update(dict.fromkeys(new, COMPILED.get(kind, (LIBRARY,))))

    for kind in FOR_EACH:
        for machine in release.machines:
            add(kind, machine)
    for kind in FOR_ALL:
        add(kind)
    tell("what is within, and the checksums")
    package.write(release.out / "PROVED", release.proved)
    compiled[release.out / "PROVED"] = ()
    package.write(release.out / f"pendratsoa-{version()}.spdx.json", contents(release, compiled))
    files = sorted(release.out.iterdir())
    sums = "".join(f"{hashlib.sha256(file.read_bytes()).hexdigest()}  {file.name}\n" for file in files)
    made = [*files, release.out / "SHA256SUMS"]
    package.write(made[-1], sums)
    if options.sign:
        tell("the signature of the checksums")
        made.append(signature(made[-1], options))
    return made


def signature(sums: pathlib.Path, options: argparse.Namespace) -> pathlib.Path:
    """The signature of the checksums, with the version and the commit in its trusted comment; minisign asks for the
    password of the key, if it has one."""
    comment = f"pendratsoa {version()}, commit {commit(options.draft)}"
    signed = sums.with_name(f"{sums.name}.minisig")
    words = ["minisign", "-S", "-s", options.sign, "-m", str(sums), "-x", str(signed), "-t", comment]
    if subprocess.run(words, stdout=subprocess.DEVNULL).returncode != 0:
        raise NotMade(f"minisign does not sign with the key {options.sign}")
    return signed


def wanted(kind: collections.abc.Callable[..., None], options: argparse.Namespace) -> bool:
    return not options.only or kind.__name__ in options.only


def arguments(words: list[str]) -> argparse.Namespace:
    kinds = [kind.__name__ for kind in (*FOR_EACH, *FOR_ALL)]
    parser = argparse.ArgumentParser(prog="release.sh", usage="release.sh [OPTION..] FOLDER", add_help=False)
    parser.add_argument("folder", metavar="FOLDER")
    parser.add_argument("--gate")
    parser.add_argument("--systems")
    parser.add_argument("--machine", choices=[machine.name for machine in MACHINES])
    parser.add_argument("--only", action="append", choices=kinds)
    parser.add_argument("--sign", metavar="KEY")
    parser.add_argument("--draft", action="store_true")
    return parser.parse_args(words)


def main(words: list[str]) -> int:
    if words == ["--help"]:
        print(__doc__.strip())
        return 0
    if words == ["--list"]:
        for kind in (*FOR_EACH, *FOR_ALL):
            print(f"{kind.__name__:8} {kind.__doc__}")
        return 0
    options = arguments(words)
    options.folder = os.path.abspath(options.folder)
    options.gate = options.gate and os.path.abspath(options.gate)
    options.systems = options.systems and os.path.abspath(options.systems)
    options.sign = options.sign and os.path.abspath(options.sign)
    os.umask(0o022)
    os.chdir(ROOT)
    try:
        with tempfile.TemporaryDirectory() as work:
            for file in make(options, pathlib.Path(work)):
                print(f"release.sh: made {file}")
    except (NotMade, subprocess.CalledProcessError) as why:
        print(f"release.sh: no release is made, since {why}", file=sys.stderr)
        return 2
    return 0


if __name__ == "__main__":
    sys.exit(main(sys.argv[1:]))
