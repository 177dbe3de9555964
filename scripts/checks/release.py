#!/usr/bin/env python3
"""A release: its files are the same from another folder, and are installed, used and removed in a bare system.

It is run before a release, and not by the gate, in which files.py makes the files for one processor.
scripts/release.sh makes the files of what is proved, and once more those that have the library and the programs, in a
clone of another name with another day, language and mask. The bare systems are roots of Debian's base packages and the
interpreters, which mmdebstrap makes from the source of packages that apt is set up with, one for x86-64, with tshark,
and one for arm64, under qemu: without a compiler, the toolchain or a network. C, Rust and Go are compiled outside of
them, and a browser outside opens the page. Streams and examples are those of the archive of pages.
"""
from __future__ import annotations

import collections.abc
import dataclasses
import os
import pathlib
import re
import shutil
import typing

import checks
import crates
import listed
import machines
import reference
import released_pages
import replayed
import uses
import wireshark
import write_numbering

VERSION = checks.library_version()
STREAMS = uses.STREAMS
LISTED = (STREAMS / "replay", STREAMS / "replay.stdout")

# The latest glibc whose symbols the library and the addon may have, that of Debian 11, and the programs, which have
# what the toolchain links.
LIBRARY_GLIBC = (2, 31)
PROGRAMS_GLIBC = (2, 34)

# What the bare systems have in addition to the packages of every system, and the second one in their place.
PACKAGES = {
    "x86_64": ("python3-venv", "ruby", "ruby-minitest", "nodejs", "tshark"),
    # the last one has the standard library of Rust, with which the crate is compiled outside
    "aarch64": ("python3", "python3-pip-whl", "ruby", "nodejs", "coreutils", "grep", "sed", "libstd-rust-dev"),
}

# Of how many test vectors and replays one is taken: under qemu a few, since scripts/checks/arm64.sh takes all of them
# there.
TAKEN_OF = {"x86_64": 1, "aarch64": 10}

# The kinds of test vectors that have no call, the first in no language and the others only in C.
WITHOUT_CALL = (b"record ", b"fields ", b"replay ")

# What the roots have of this repository, for test vectors.
TAKEN = ("conformance", "include", "proto", "python", "ruby/test", "node/test")

# The descriptor sets of the packages' tests, by which the programs of their pages are run.
PYTHON_SET = """
import sys
sys.path.append("/trial/python/tests")
import descriptors
sys.stdout.buffer.write(descriptors.SMALL)
"""
RUBY_SET = ("-rpendratsoa", "-I", "/trial/ruby/test", "-rdescriptors", "-e", "print Descriptors::SMALL")

# Prints the expressions of a page whose lines have what they are.
RUBY_LINES = """
File.foreach(ARGV[0]) do |line|
  found = TOPLEVEL_BINDING.eval(line)
  puts found.inspect if line.include?("# =>")
end
"""

# What dpkg and ldconfig note of what they do, and the folders that gem makes for its first gem; all else is a trace.
NOTES = re.compile(
    r"^(var/log/|var/lib/dpkg/(status|diversions|triggers/.*)-old$|var/cache/ldconfig/|var/lib/gems/[^/]*/(\w*/)?$"
    r"|trial/|proc/|dev/)"
)


@dataclasses.dataclass
class Root:
    """A bare system: its folder, and what runs its programs where this is another processor."""

    folder: pathlib.Path
    emulator: tuple[str, ...] = ()

    def run(
        self, *words: str | pathlib.Path, given: checks.Given = b"", folder: str = "/trial", **env: str
    ) -> checks.Run:
        """Runs a program of it, in this folder of it, without a network."""
        unshare = ["unshare", "--mount", "--pid", "--fork", "--kill-child", "--net", "--mount-proc"]
        inside = [f"--root={self.folder}", f"--wd={folder}", *self.emulator]
        plain = {"PATH": "/usr/local/bin:/usr/sbin:/usr/bin:/sbin:/bin", "HOME": "/root", "LC_ALL": "C.UTF-8", **env}
        return checks.run([*unshare, *inside, *words], given, env={**plain, "PYTHONDONTWRITEBYTECODE": "1"})

    def traces(self) -> set[str]:
        """All that is there, with what each is."""
        found = set()
        for path in self.folder.rglob("*"):
            name = str(path.relative_to(self.folder))
            if not NOTES.match(f"{name}/" if path.is_dir() and not path.is_symlink() else name):
                status = path.lstat()
                size = 0 if path.is_dir() else status.st_size
                found.add(f"{name} {oct(status.st_mode)} {size} {os.readlink(path) if path.is_symlink() else ''}")
        return found


class Trial:
    """A release that is tried in a root for one machine."""

    def __init__(self, check: checks.Check, machine: machines.Machine, release: pathlib.Path):
        self.check = check
        self.machine = machine
        self.release = release
        self.work = check.work / machine.name
        self.work.mkdir()
        self.root = self.bare()
        self.inside = self.root.folder / "trial"
        for name in TAKEN:
            shutil.copytree(name, self.inside / name, dirs_exist_ok=True)
        unpack(self, released_pages.ARCHIVE, self.inside / "pages")
        (self.inside / "examples").symlink_to("pages/examples")
        self.lines = []
        for file in sorted((self.inside / "conformance").rglob("*.txt")):
            lines = [line for line in file.read_bytes().splitlines(keepends=True) if not line.startswith((b"#", b"\n"))]
            file.write_bytes(b"".join(lines[:: TAKEN_OF[machine.name]]))
            self.lines.append(file.read_bytes())
        shutil.copytree(release, self.inside / "release")
        for file in ("scripts/install.sh", "scripts/checks/conformance_calls.py"):
            (self.inside / file).parent.mkdir(parents=True, exist_ok=True)
            shutil.copyfile(file, self.inside / file)

    def bare(self) -> Root:
        """A bare system for the machine, by mmdebstrap."""
        said = ["apt-get", "indextargets", "--format", "deb $(REPO_URI) $(CODENAME) $(COMPONENT)"]
        lines = checks.run([*said, "Created-By: Packages", "Origin: Debian"]).out.decode().splitlines()
        if not lines:
            raise checks.NotRun("apt has no lists of Debian's packages; apt-get update gets them")
        sources = self.work / "sources.list"
        sources.write_text("".join(f"{line}\n" for line in dict.fromkeys(lines)))
        folder = self.work / "root"
        words = ["timeout", "15m", "mmdebstrap", "--quiet", f"--include={','.join(PACKAGES[self.machine.name])}"]
        emulator = ()
        if self.machine.tools:
            # no script of a package runs there, since this processor cannot
            words += ["--variant=extract", f"--architectures={self.machine.debian}"]
            emulator = ("/qemu",)
        else:
            words += ["--variant=essential"]
        ended = checks.run([*words, lines[0].split()[2], folder, sources])
        if ended.status != 0 and b"E: apt-get update " in ended.err:
            raise checks.NotRun(f"apt reaches no source of packages: {lines[0]}")
        name = f"mmdebstrap makes a bare system within 15 minutes, {self.machine.name}"
        if not self.check.case(name, ended.status == 0, ended):
            raise checks.Stopped
        if emulator:
            shutil.copy(shutil.which(f"qemu-{self.machine.name}-static"), folder / "qemu")
        for name in ("trial", "proc", "srv"):
            (folder / name).mkdir(exist_ok=True)
        return Root(folder, emulator)

    def case(self, name: str, *words: str | pathlib.Path, **how: object) -> checks.Run:
        """Counts a command in the root, which is right where its status is 0."""
        ended = self.root.run(*words, **how)
        self.check.case(f"{name}, {self.machine.name}", ended.status == 0, ended)
        return ended

    def prints(self, name: str, expected: bytes, *words: str | pathlib.Path, **how: typing.Any) -> None:
        """A program in the root prints this."""
        ended = self.root.run(*words, **how)
        is_right = ended.status == 0 and ended.out == expected != b""
        shown = "" if ended.out == expected else checks.difference(expected, ended.out)
        self.check.case(f"{name}, {self.machine.name}", is_right, f"{ended}{shown}")

    def lists(self, name: str, *words: str | pathlib.Path, **env: str) -> None:
        """An example in the root lists a stream."""
        self.prints(name, LISTED[1].read_bytes(), *words, given=LISTED[0], **env)

    def replays(self, language: str, *words: str | pathlib.Path, **env: str) -> None:
        """An example in the root that checks a replay prints what the table of the examples has."""
        recording = self.inside / "recording"
        for case in replayed.cases()[:: TAKEN_OF[self.machine.name]]:
            recording.unlink(missing_ok=True)
            if case.recorded != "missing":
                recording.write_bytes(replayed.stream(case.recorded))
            given = replayed.stream(case.replayed)
            ended = self.root.run(*words, "/trial/recording", case.version, given=given, **env)
            is_right = (ended.status, ended.out.decode(), bool(ended.err)) == (case.status, case.printed, case.says_why)
            name = f"the replay in {language}, {case.recorded} {case.replayed}, {self.machine.name}"
            self.check.case(name, is_right, ended)

    def vectors(
        self, name: str, *words: str | pathlib.Path, others: tuple[bytes, ...] = WITHOUT_CALL, **env: str
    ) -> None:
        """A program in the root that counts test vectors, which it is given with their number: all of them, except
        those of other kinds, and of which none fails."""
        lines = [line for text in self.lines for line in text.splitlines()]
        wanted = sum(not line.startswith(others) for line in lines)
        ended = self.root.run(*words, given=b"".join(self.lines), TEST_VECTORS=str(wanted), **env)
        counts = re.search(rb"^(\d+) passed, 0 failed$", ended.out, re.MULTILINE)
        is_right = ended.status == 0 and bool(counts) and int(counts[1]) == wanted > 0
        self.check.case(f"{name}, all {wanted} of them, {self.machine.name}", is_right, ended)

    def file(self, name: str) -> str:
        """The path in the root of a file of the release."""
        found = [path.name for path in self.release.glob(name)]
        self.check.case(f"one file is {name}", len(found) == 1, found)
        return f"release/{found[0]}" if found else name

    @property
    def tarball(self) -> str:
        return self.file(f"pendratsoa-{VERSION}-linux-{self.machine.name}.tar.gz")

    def programs(self, name: str, folder: str) -> None:
        """The programs in a folder of the root print what they should."""
        is_emulated = bool(self.root.emulator)

        def run(words: list[str], given: bytes) -> checks.Run:
            program, *others = words
            if program not in uses.INSTALLED:
                # the emulator takes a path
                places = (f"{place}/{program}" for place in ("usr/bin", "bin"))
                found = next((place for place in places if (self.root.folder / place).exists()), program)
                return self.root.run(f"/{found}", *others, given=given)
            # and no script
            by = ["/usr/bin/python3"] if is_emulated and program == "journal_view" else []
            return self.root.run(*by, f"{folder}/{program}", *others, given=given)

        uses.programs(self.check, name, self.inside, run, runs_children=not is_emulated)

    def dissector(self, share: str) -> None:
        """tshark shows by the dissector in a folder of the root what its page has; under qemu it is the same file."""
        script = pathlib.Path(share, "wireshark", wireshark.SCRIPT.name)
        if self.root.emulator:
            found = (self.root.folder / script.relative_to("/")).read_bytes()
            self.check.same(f"{script}, {self.machine.name}", wireshark.SCRIPT.read_bytes(), found)
            return
        wireshark.write_captures(self.inside, LISTED[0].read_bytes(), script)
        wireshark.show_page(self.check, lambda command: self.root.run("sh", "-c", command, HOME="/trial"))

    def removed(self, name: str, use: collections.abc.Callable[[], None]) -> None:
        """What is installed, used and removed leaves no trace."""
        before = self.root.traces()
        use()
        after = self.root.traces()
        changes = sorted(f"- {line}" for line in before - after) + sorted(f"+ {line}" for line in after - before)
        self.check.case(f"{name} leaves no trace, {self.machine.name}", not changes, changes[:10])

    def compiled(self) -> None:
        """Programs in C, which are compiled outside with what the tarball has: the example, and the test vectors."""
        unpacked = self.work / "unpacked"
        unpacked.mkdir()
        self.check.command("tar", ["tar", "-xf", self.release / pathlib.Path(self.tarball).name, "-C", unpacked,
                                   "--strip-components=1"])
        library = unpacked / "lib"
        examples = self.inside / "pages/examples/c"
        numbering = self.work / "numbering.c"
        numbering.write_text(uses.program_of("docs/C.md", "c")[0])
        for source, name, linked in (
            (examples / "listing.c", "static", "libpendratsoa.a"),
            (examples / "listing.c", "shared", "libpendratsoa.so"),
            (examples / "replay.c", "replay_in_c", "libpendratsoa.so"),
            (numbering, "numbering_in_c", "libpendratsoa.so"),
            ("tests/c/test_vectors.c", "vectors", "libpendratsoa.so"),
        ):
            words = [f"{self.machine.tools}gcc", "-O2", "-I", unpacked / "include", source, library / linked]
            self.check.command(f"{name} for {self.machine.name}", [*words, "-o", self.inside / name])
        described = pathlib.Path("proto/journal.proto").read_text()
        names = re.findall(r"^message (\w+) |^  option \(schema\) = (\d+)", described, re.MULTILINE)
        numbered = [(int(number), names[at - 1][0]) for at, (_, number) in enumerate(names) if number]
        (self.inside / "schemas").write_text("".join(f"{name}\n" for _, name in sorted(numbered)))
        elves = [package for package in (unpacked / "lib").glob("*.so") if package.exists()]
        self.needs_at_most("the library", LIBRARY_GLIBC, *elves)
        # journal_view is a script
        programs = [file for file in (unpacked / "bin").iterdir() if file.read_bytes().startswith(b"\x7fELF")]
        self.needs_at_most("the programs", PROGRAMS_GLIBC, *programs)

    def needs_at_most(self, name: str, latest: tuple[int, ...], *files: pathlib.Path) -> None:
        """The symbols of the C library in these files are of no later version than this."""
        found = self.machine.glibc(*files)
        is_right = tuple(map(int, found.split("."))) <= latest
        wanted = ".".join(map(str, latest))
        self.check.case(f"{name} for {self.machine.name} needs glibc {wanted} at most", is_right, found)

    def of_c(self, **env: str) -> None:
        """The example and the test vectors in C, with the library that is installed."""
        self.lists("the listing in C, static", "/trial/static")
        self.lists("the listing in C, shared", "/trial/shared", **env)
        self.replays("C", "/trial/replay_in_c", **env)
        printed = uses.program_of("docs/C.md", "c")[1]
        self.prints("other field numbers in C", printed, "/trial/numbering_in_c", **env)
        self.vectors("the test vectors in C", "/trial/vectors", "schemas", others=WITHOUT_CALL[:1], **env)

    def of_python(self, *python: str | pathlib.Path, **env: str) -> None:
        """The package for Python in the root, by this interpreter."""
        self.says_compiled("Python", *python, "-c", "import pendratsoa; print(pendratsoa.COMPILED)", **env)
        self.lists("the listing in Python", *python, "examples/python/listing.py", **env)
        self.replays("Python", *python, "examples/python/replay.py", **env)
        program, printed = uses.program_of("python/README.md", "python")
        (self.inside / "numbering.py").write_text(program)
        (self.inside / "set.binpb").write_bytes(self.root.run(*python, "-c", PYTHON_SET, **env).out)
        self.prints("other field numbers in Python", printed, *python, "numbering.py", **env)
        self.vectors("the test vectors in Python", *python, "scripts/checks/conformance_calls.py", **env)

    def of_ruby(self, ruby: str, **env: str) -> None:
        """The gem in the root, by this interpreter."""
        self.says_compiled("Ruby", ruby, "-rpendratsoa", "-e", "puts Pendratsoa::COMPILED", **env)
        self.lists("the listing in Ruby", ruby, "/trial/ruby/listing.rb", **env)
        self.replays("Ruby", ruby, "/trial/ruby/replay.rb", **env)
        program, _ = uses.program_of("ruby/README.md", "ruby")
        (self.inside / "numbering.rb").write_text(program)
        (self.inside / "set.binpb").write_bytes(self.root.run(ruby, *RUBY_SET, **env).out)
        printed = "".join(f"{line}\n" for line in re.findall("# => (.*)", program)).encode()
        words = ("-rpendratsoa", "-e", RUBY_LINES, "numbering.rb")
        self.prints("other field numbers in Ruby", printed, ruby, *words, **env)

    def says_compiled(self, language: str, *words: str | pathlib.Path, **env: str) -> None:
        """A package uses its compiled module."""
        ended = self.root.run(*words, **env)
        is_right = ended.status == 0 and ended.out.strip().lower() == b"true"
        self.check.case(f"the compiled module of {language}, {self.machine.name}", is_right, ended)

    def node(self) -> None:
        """The package for Node, in a user's folder, over its addon and its module: by npm where that is there and this
        is its processor."""
        user = self.inside / "user"
        package = user / "node_modules/pendratsoa"
        file = self.release / pathlib.Path(self.file(f"pendratsoa-{VERSION}.tgz")).name
        user.mkdir()
        (user / "package.json").write_text('{"private": true}\n')
        if not self.machine.tools and self.check.has("npm", "npm install"):
            words = ["npm", "install", "--offline", "--no-audit", "--no-fund", file]
            self.check.command("npm install", words, cwd=user, env={**os.environ, "HOME": str(self.work)})
        else:
            package.mkdir(parents=True)
            self.check.command("tar", ["tar", "-xf", file, "-C", package, "--strip-components=1"])
        addon = package / f"build/linux-{self.machine.node}/pendratsoa.node"
        self.needs_at_most("the addon", LIBRARY_GLIBC, addon)
        # the tests are next to the package's files, and find the vectors two folders above
        shutil.copytree("node/test", package / "test")
        (user / "node_modules/conformance").symlink_to("/trial/conformance")
        test = "user/node_modules/pendratsoa/test/conformance.js"
        program, printed = uses.program_of("node/README.md", "ts")
        (user / "numbering.mjs").write_text(program)
        write_numbering.main(user)
        for calls in ("addon", "module"):
            env = {"PENDRATSOA_CALLS": calls}
            self.vectors(f"the test vectors in JavaScript, {calls}", "/usr/bin/node", test, **env)
            name = f"other field numbers in JavaScript, {calls}"
            self.prints(name, printed, "/usr/bin/node", "numbering.mjs", folder="/trial/user", **env)
        if self.check.has("tsc", "the examples in TypeScript"):
            examples = [self.inside / f"pages/examples/typescript/{name}.mts" for name in ("listing", "replay")]
            copies = [shutil.copy(example, user) for example in examples]
            words = ["tsc", "--strict", "--target", "es2022", "--module", "node16", *copies]
            self.check.command("tsc with the types of the package", words)
            self.lists("the listing in TypeScript", "/usr/bin/node", "user/listing.mjs")
            self.replays("TypeScript", "/usr/bin/node", "user/replay.mjs")


def here(trial: Trial) -> None:
    """All that is for this processor, as its page says."""
    check, root, tarball = trial.check, trial.root, trial.tarball

    def by_tarball() -> None:
        trial.case("the tarball is unpacked", "tar", "-xf", tarball)
        folder = pathlib.Path(tarball).name.removesuffix(".tar.gz")
        trial.case("install.sh", "sh", f"{folder}/install.sh")
        trial.case("install.sh again", "sh", f"{folder}/install.sh")
        trial.programs("of the tarball", "/usr/local/bin")
        trial.dissector("/usr/local/share")
        trial.of_c()
        trial.case("install.sh --uninstall", "sh", f"{folder}/install.sh", "--uninstall")
        mine = root.folder / "usr/local/bin/journal"
        mine.write_text("mine\n")
        ended = root.run("sh", f"{folder}/install.sh")
        is_kept = mine.read_text() == "mine\n"
        is_said = ended.status == 2 and b"is of no release" in ended.err
        check.case("install.sh replaces no file of another's", is_said and is_kept, ended)
        mine.unlink()

    def by_script() -> None:
        words = ["sh", "scripts/install.sh", "--from", tarball]
        trial.case("scripts/install.sh --from", *words, "/srv/pendratsoa")
        trial.programs("by --from", "/srv/pendratsoa/bin")
        trial.of_c(LD_LIBRARY_PATH="/srv/pendratsoa/lib")
        trial.case("scripts/install.sh --from .. --uninstall", *words, "--uninstall", "/srv/pendratsoa")
        sums = trial.inside / "release/SHA256SUMS"
        kept = sums.read_text()
        sums.write_text(kept.replace("0", "1"))
        ended = root.run(*words, "/srv/pendratsoa")
        is_said = ended.status == 2 and b"has another checksum for" in ended.err
        check.case("scripts/install.sh --from, with another checksum", is_said, ended)
        sums.write_text(kept)

    def by_deb() -> None:
        trial.case("dpkg -i", "dpkg", "-i", trial.file(f"pendratsoa_{VERSION}_amd64.deb"))
        trial.programs("of the Debian package", "/usr/bin")
        trial.dissector("/usr/share")
        trial.of_c()
        trial.case("dpkg -P", "dpkg", "-P", "pendratsoa")

    def by_wheel() -> None:
        wheel = trial.file(f"pendratsoa-{VERSION}-py3-none-*_x86_64.whl")
        trial.case("a virtual environment", "python3", "-m", "venv", "venv")
        trial.case("pip install", "venv/bin/pip", "install", "--no-index", wheel)
        trial.of_python("venv/bin/python")
        place = "venv/lib/python3*/site-packages/pendratsoa*"
        is_there = any(trial.inside.glob(place))
        trial.case("pip uninstall", "venv/bin/pip", "uninstall", "-y", "pendratsoa")
        left = list(trial.inside.glob(place))
        check.case("pip uninstall leaves nothing", is_there and not left, left)

    def by_gem() -> None:
        gem = trial.file(f"pendratsoa-{VERSION}-x86_64-linux.gem")
        trial.case("gem install", "gem", "install", "--local", "--no-document", gem)
        trial.of_ruby("ruby")
        trial.vectors("the test vectors in Ruby", "ruby", "/trial/ruby/test/test_conformance.rb")
        trial.case("gem uninstall", "gem", "uninstall", "--executables", "pendratsoa")

    take_ruby(trial)
    for name, use in (("the tarball", by_tarball), ("scripts/install.sh --from", by_script), ("the package", by_deb),
                      ("the wheel", by_wheel), ("the gem", by_gem), ("the package for Node", trial.node)):
        trial.removed(name, use)
    rust(trial)
    go(trial)


def take_ruby(trial: Trial) -> None:
    """Takes the examples in Ruby, which are in the folder of the gem."""
    for name in ("listing", "replay"):
        shutil.copy(f"ruby/examples/{name}.rb", trial.inside / "ruby")


def rust(trial: Trial) -> None:
    """The crate for Rust, added to a user's outside with nothing set, whose programs are run in the root, and its test
    vectors."""
    check, folder = trial.check, trial.work / "rust"
    if not (check.has("cargo", "the crate for Rust") and check.has("rustc", "the crate for Rust")):
        return
    env = {**bare_environment(), "CARGO_HOME": str(trial.work / "cargo"), "CARGO_NET_OFFLINE": "true"}
    if "RUSTUP_HOME" in os.environ or pathlib.Path("~/.rustup").expanduser().exists():
        env["RUSTUP_HOME"] = os.environ.get("RUSTUP_HOME", str(pathlib.Path("~/.rustup").expanduser()))
    target = []
    if trial.machine.tools:
        target = ["--target", trial.machine.target]
        env.update(debians_rust(trial))
        probe = ["rustc", *target, *env["RUSTFLAGS"].split(), "--crate-type=lib", "--out-dir", trial.work, "-"]
        if checks.run(probe, env=env).status != 0:
            check.left_out(
                f"the crate for Rust, {trial.machine.name}", "there is no rustc of Debian's, or an older one"
            )
            return
    unpack(trial, f"pendratsoa-rust-{VERSION}.tar.gz", folder)
    # its tests are only in the repository
    shutil.copy("rust/Cargo.toml", folder)
    shutil.copytree("rust/tests", folder / "tests")
    (trial.work / "conformance").symlink_to(trial.inside / "conformance")
    words = ["cargo", "test", "--quiet", *target, "--test", "conformance"]
    check.counted(f"the test vectors in Rust, {trial.machine.name}", words, cwd=folder, env=env)
    user = trial.work / "user_of_rust"
    user.mkdir()
    for words in (["init", "--quiet", "--vcs", "none", "--name", "listing"], ["add", "--quiet", "--path", folder]):
        check.command(f"cargo {words[0]}", ["cargo", *words], cwd=user, env=env)
    shutil.copy("rust/examples/listing.rs", user / "src/main.rs")
    (user / "src/bin").mkdir()
    shutil.copy("rust/examples/replay.rs", user / "src/bin")
    # also the lines that the page hides, and all of them in a function, as rustdoc has it
    program = re.sub("^#( |$)", "", uses.program_of("rust/README.md", "rust")[0], flags=re.MULTILINE)
    (user / "src/bin/numbering.rs").write_text(f"fn main() {{\n{program}}}\n")
    check.command("cargo build", ["cargo", "build", "--quiet", *target], cwd=user, env=env)
    inside = trial.inside / "rust"
    inside.mkdir()
    built = [user.joinpath("target", *target[1:], "debug", name) for name in ("listing", "replay", "numbering")]
    if check.command("the programs in Rust", ["cp", *built, inside]):
        trial.lists("the listing in Rust", "/trial/rust/listing")
        trial.replays("Rust", "/trial/rust/replay")
        # the key in the stream of the page
        trial.prints("other field numbers in Rust", b"a\n", "/trial/rust/numbering")


def debians_rust(trial: Trial) -> dict[str, str]:
    """What has Debian's cargo and rustc compile for another processor, with the standard library of the root, and run
    tests under qemu, over the root too."""
    name = f"CARGO_TARGET_{trial.machine.target.replace('-', '_').upper()}"
    return {
        "PATH": f"/usr/bin:{os.environ.get('PATH', '')}",
        "RUSTFLAGS": f"--sysroot {trial.root.folder}/usr",
        f"{name}_LINKER": f"{trial.machine.tools}gcc",
        f"{name}_RUNNER": f"qemu-{trial.machine.name}-static -L {trial.root.folder}",
    }


def go(trial: Trial) -> None:
    """The package for Go, required by a user's module outside with nothing set but the processor, whose programs are
    run in the root, with the test vectors."""
    check, folder = trial.check, trial.work / "go"
    if not check.has("go", "the package for Go"):
        return
    unpack(trial, f"pendratsoa-go-{VERSION}.tar.gz", folder)
    for file in sorted(pathlib.Path("go").glob("*_test.go")):
        shutil.copy(file, folder)
    env = {**bare_environment(), "GOPROXY": "off", "GOFLAGS": "-mod=mod", "GOPATH": str(trial.work / "path"),
           "GOCACHE": str(trial.work / "cache"), "GOSUMDB": "off"}
    if trial.machine.tools:
        env.update(GOARCH=trial.machine.go, CGO_ENABLED="1", CC=f"{trial.machine.tools}gcc")
    inside = trial.inside / "go"
    inside.mkdir()
    user = trial.work / "user_of_go"
    user.mkdir()
    shutil.copy("go/examples/listing/main.go", user)
    program, printed = uses.program_of("go/README.md", "go")
    for name, text in (("replay", pathlib.Path("go/examples/replay/main.go").read_text()), ("numbering", program)):
        (user / name).mkdir()
        (user / name / "main.go").write_text(text)
    module = "pendratsoa.dev/pendratsoa"
    for words in (
        ["mod", "init", "listing"],
        ["mod", "edit", "-require", f"{module}@v{VERSION}", "-replace", f"{module}={folder}"],
        ["build", "-o", f"{inside}/", "./..."],
    ):
        check.command(f"go {' '.join(map(str, words[:2]))}", ["go", *words], cwd=user, env=env)
    check.command("go test -c", ["go", "test", "-c", "-o", inside / "tests", "."], cwd=folder, env=env)
    trial.lists("the listing in Go", "/trial/go/listing")
    trial.replays("Go", "/trial/go/replay")
    write_numbering.main(inside)
    given = (inside / "theirs").read_bytes()
    trial.prints("other field numbers in Go", printed, "/trial/go/numbering", given=given, folder="/trial/go")
    tests = ["/trial/go/tests", "-test.v", "-test.run", "Conformance"]
    trial.vectors("the test vectors in Go", *tests, folder="/trial/go")


def unpack(trial: Trial, name: str, folder: pathlib.Path) -> None:
    folder.mkdir()
    trial.check.command(f"tar -xf {name}", ["tar", "-xf", trial.release / name, "-C", folder, "--strip-components=1"])


def bare_environment() -> dict[str, str]:
    """An environment in which no variable leads to the library."""
    return {name: os.environ[name] for name in ("PATH", "HOME") if name in os.environ}


def under_qemu(trial: Trial) -> None:
    """What is for arm64, by the interpreters of that processor. No script of sh runs there: install.sh runs outside."""
    check, root = trial.check, trial.root

    def by_tarball() -> None:
        check.command("tar", ["tar", "-xf", trial.inside / trial.tarball, "-C", trial.inside])
        folder = trial.inside / pathlib.Path(trial.tarball).name.removesuffix(".tar.gz")
        words = ["sh", folder / "install.sh"]
        check.command("install.sh for arm64", [*words, root.folder / "srv/pendratsoa"])
        trial.programs("of the tarball for arm64", "/srv/pendratsoa/bin")
        trial.dissector("/srv/pendratsoa/share")
        trial.of_c(LD_LIBRARY_PATH="/srv/pendratsoa/lib")
        check.command("install.sh --uninstall for arm64", [*words, "--uninstall", root.folder / "srv/pendratsoa"])

    def by_deb() -> None:
        deb = trial.inside / trial.file(f"pendratsoa_{VERSION}_arm64.deb")
        check.command("dpkg-deb --extract for arm64", ["dpkg-deb", "--extract", deb, trial.inside / "deb"])
        trial.programs("of the Debian package for arm64", "/trial/deb/usr/bin")
        trial.dissector("/trial/deb/usr/share")
        trial.of_c(LD_LIBRARY_PATH="/trial/deb/usr/lib/aarch64-linux-gnu")

    def by_wheel() -> None:
        wheel = trial.file(f"pendratsoa-{VERSION}-py3-none-*_aarch64.whl")
        pip = next(root.folder.glob("usr/share/python-wheels/pip-*.whl")).relative_to(root.folder)
        words = ["install", "--no-index", "--no-cache-dir", "--target", "site", wheel]
        trial.case("pip install", "/usr/bin/python3", f"/{pip}/pip", *words)
        trial.of_python("/usr/bin/python3", PYTHONPATH="/trial/site")

    def by_gem() -> None:
        gem = trial.file(f"pendratsoa-{VERSION}-aarch64-linux.gem")
        ruby = "/usr/bin/ruby"
        words = ["install", "--local", "--no-document", "--install-dir", "/trial/gems", gem]
        trial.case("gem install", ruby, "/usr/bin/gem", *words)
        trial.of_ruby(ruby, GEM_PATH="/trial/gems")

    take_ruby(trial)
    for name, use in (("the tarball", by_tarball), ("the package", by_deb), ("the wheel", by_wheel),
                      ("the gem", by_gem)):
        trial.removed(name, use)
    trial.node()
    rust(trial)
    go(trial)


def rejected(check: checks.Check) -> None:
    """Wrong words, and what is not a release, are rejected in a line on the standard error that tells why."""
    full = check.work / "full"
    full.mkdir()
    (full / "file").write_text("file\n")
    gate = check.work / "gate"
    gate.write_text("5 passed, 1 failed\n")
    for words, why in (
        ([], "required: FOLDER"),
        (["--only", "nothing", "x"], "invalid choice"),
        (["--draft", full], "is no empty folder"),
        (["--draft", "--gate", gate, check.work / "none"], "'5 passed, 1 failed'"),
        (["--draft", "--sign"], "expected one argument"),
    ):
        ended = checks.run(["sh", "scripts/release.sh", *words])
        is_right = ended.status == 2 and why.encode() in ended.err and not ended.out
        check.case(f"release.sh {' '.join(map(str, words))}", is_right, ended)
    ended = checks.run(["sh", "scripts/releasing.sh", "scripts"])
    is_right = ended.status == 1 and b"is in the repository" in ended.err
    check.case("releasing.sh with a folder of the repository", is_right, ended)


def made(
    check: checks.Check, machine: str | None, kinds: collections.abc.Iterable[str] = ()
) -> tuple[pathlib.Path, str]:
    """The files of a release, all or of some kinds, whose checksums are right, and what was said of the stages; where a
    tool for them is absent the check ends."""
    release = check.work / "release"
    words = ["sh", "scripts/release.sh", "--draft", *(["--machine", machine] if machine else [])]
    words += [word for kind in kinds for word in ("--only", kind)] + [str(release)]
    ended = checks.run(words)
    absent = re.search(
        rb"(?:nothing is built|no release is made), since ((?:there (?:is|are) no|no python3) .*)", ended.err
    )
    if ended.status == 2 and absent:
        raise checks.NotRun(absent[1].decode())
    check.case("release.sh", ended.status == 0, ended)
    check.stop_if_failed()
    check.command("sha256sum -c", ["sha256sum", "--check", "--strict", "--quiet", "SHA256SUMS"], cwd=release)
    return release, ended.err.decode()


def signed(check: checks.Check) -> None:
    """The checksums of a release are signed by a key that is made here; a changed list, and another key, are found; a
    key that is absent makes no signature."""
    if not check.has("minisign", "the signature of the checksums"):
        return
    keys = {name: check.work / name for name in ("key", "key.pub", "other", "other.pub")}
    for name in ("key", "other"):
        check.command(f"minisign makes {name}", ["minisign", "-G", "-W", "-p", keys[f"{name}.pub"], "-s", keys[name]])
    folder = check.work / "signed"
    words = ["sh", "scripts/release.sh", "--draft", "--machine", "x86_64", "--only", "tarball"]
    ended = checks.run([*words, "--sign", keys["key"], folder])
    sums = folder / "SHA256SUMS"
    check.case("release.sh --sign", ended.status == 0 and sums.with_name("SHA256SUMS.minisig").exists(), ended)
    check.stop_if_failed()

    def verified(by: pathlib.Path) -> checks.Run:
        return checks.run(["minisign", "-V", "-p", by, "-m", sums])

    ended = verified(keys["key.pub"])
    check.case("the signature is verified", ended.status == 0 and VERSION.encode() in ended.out, ended)
    check.case("another key does not verify it", verified(keys["other.pub"]).status != 0)
    sums.write_text(sums.read_text().replace("0", "1", 1))
    check.case("a changed list is not verified", verified(keys["key.pub"]).status != 0)
    ended = checks.run([*words, "--sign", check.work / "absent", check.work / "unsigned"])
    is_right = ended.status == 2 and b"minisign does not sign with the key" in ended.err
    check.case("release.sh --sign with a key that is absent", is_right, ended)


def again(check: checks.Check, release: pathlib.Path) -> None:
    """The library is built again, and files that have it and the programs are made, in another folder: they have the
    same bytes. The programs are those that rt ci has built."""
    if checks.run(["git", "rev-parse", "HEAD"]).status != 0:
        check.left_out("the same again", "there is no commit")
        return
    other = check.work / "another folder"
    check.command("git clone", ["git", "clone", "--quiet", "--shared", checks.ROOT, other])
    names = checks.run(["git", "ls-files", "-z", "--cached", "--others", "--exclude-standard"]).out.decode().split("\0")
    for name in filter(os.path.isfile, names):
        (other / name).parent.mkdir(parents=True, exist_ok=True)
        shutil.copy2(name, other / name)
    # what is built is up to date by the times of files, which are copied, and of folders
    for part in crates.PARTS:
        for folder in pathlib.Path("crates").glob(f"*/{part}/**/"):
            if (other / folder).is_dir():
                shutil.copystat(folder, other / folder)
    for out in pathlib.Path("crates").glob("*/out"):
        if out.parent.name != "journal_ffi":
            (other / out).symlink_to(out.resolve())
        elif (out / "incremental").exists():
            # what is proved of the crate; it is compiled again
            shutil.copytree(out / "incremental", other / out / "incremental")
    folder = check.work / "release again"
    script = 'umask 077; exec sh scripts/release.sh --draft --machine x86_64 --only deb --only wheel --only gem "$1"'
    env = {**os.environ, "TZ": "Asia/Tokyo", "LC_ALL": "C", "HOME": str(check.work), "SOURCE_DATE_EPOCH": date()}
    if not check.command("release.sh, again", ["sh", "-c", script, "sh", folder], cwd=other, env=env):
        return
    for kind in ("deb", "whl", "gem"):
        made_again = sorted(folder.glob(f"*.{kind}"))
        check.case(f"a file *.{kind}, again", bool(made_again))
        for file in made_again:
            check.case(f"{file.name}, again", file.read_bytes() == (release / file.name).read_bytes())
    library = pathlib.Path("crates/journal_ffi/out/libjournal_ffi.a")
    check.case("the library, again", (other / library).read_bytes() == library.read_bytes())


def pages(check: checks.Check, release: pathlib.Path) -> None:
    """The archive of pages, unpacked: it has all pages, and every link leads to what is there."""
    folder = check.work / "pages"
    folder.mkdir()
    words = ["tar", "-xf", release / released_pages.ARCHIVE, "-C", folder, "--strip-components=1"]
    check.command(f"tar -xf {released_pages.ARCHIVE}", words)
    names = [released_pages.archived(name) for name in released_pages.named()]
    absent = [name for name in names if not (folder / name).is_file()]
    check.case("the archive has each page and each example", bool(names) and not absent, absent)
    reference.links(check, folder)


def date() -> str:
    return checks.run(["git", "log", "-1", "--format=%ct"]).out.decode().strip()


def main(check: checks.Check) -> None:
    for name in checks.PROGRAMS:
        check.program(name)
    check.static_library()
    arm = machines.MACHINES[1]
    has_arm = shutil.which(f"{arm.tools}gcc") and pathlib.Path("/usr/aarch64-linux-gnu/include/stdlib.h").exists()
    if not has_arm:
        check.without("what is for arm64", f"{arm.tools}gcc with its C library")
    release, _ = made(check, None if has_arm else "x86_64")
    listed.named(check, release, ["SHA256SUMS.minisig"])
    listed.within(check, release)
    pages(check, release)
    uses.opened(check, release / "journal_view.html")
    again(check, release)
    if os.geteuid() != 0:
        check.left_out("the bare systems", "only root may make them")
        return
    for tool in ("mmdebstrap", "unshare", "apt-get"):
        if not check.has(tool, "the bare systems"):
            return
    trial = Trial(check, machines.MACHINES[0], release)
    trial.compiled()
    here(trial)
    if has_arm and check.has(f"qemu-{arm.name}-static", "what is for arm64, run"):
        trial = Trial(check, arm, release)
        trial.compiled()
        under_qemu(trial)


if __name__ == "__main__":
    checks.perform(main)
