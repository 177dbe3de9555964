#!/usr/bin/env python3
"""The whole installation: its programs run, its man pages and completion are found, and nothing of it is left.

scripts/install.sh is run in an empty environment and puts the proved programs and the library into a folder; nothing is
proved for it here. What it installs is looked at by man, mandoc, bash and zsh where these are installed, and is
installed once more below DESTDIR.
"""
from __future__ import annotations

import os
import pathlib
import re

import checks
import crates
import list_stream

STREAMS = checks.ROOT / "examples" / "streams"

# The names in bin, the last of a script.
INSTALLED = (*checks.PROGRAMS, "journal_view")

# What an installed program prints of the stream that it is given: its words, and the file of it or the text.
PRINTS = (
    (("journal_list",), STREAMS / "replay.stdout"),
    (("journal_dump",), STREAMS / "replay.dump"),
    (("journal_diff", STREAMS / "recorded", STREAMS / "recorded"), "same, 4 commands\n"),
    (("journal_list", STREAMS / "replay"), STREAMS / "replay.stdout"),
    (("journal_list", "-", "3", "--protocol", "7"), STREAMS / "replay.stdout"),
    (("journal_dump", STREAMS / "replay"), STREAMS / "replay.dump"),
    (("journal_make", STREAMS / "replay.dump"), STREAMS / "replay"),
    (("journal", "dump"), STREAMS / "replay.dump"),
    (("journal", "make", STREAMS / "replay.dump"), STREAMS / "replay"),
    (("journal", "diff", STREAMS / "recorded", STREAMS / "recorded"), "same, 4 commands\n"),
    (("journal", "list"), STREAMS / "replay.stdout"),
    (("journal", "show", "--to", "0", STREAMS / "recorded"), '#0 InputCommand "input"\n'),
    (("journal_view", "-o", "page.html", STREAMS / "recorded", STREAMS / "replayed_other_handler"), "page.html\n"),
    (("journal_view", "--version"), f"journal_view {checks.library_version()}\n"),
    *(((name, "--version"), f"{name} {checks.library_version()}\n") for name in checks.PROGRAMS),
)

# What it prints only on the standard error, with status 2.
NO_FILE = "./nothing: No such file or directory (os error 2)"
ERRORS = (
    (("journal_list", "0"), "usage: journal_list [1..65536] [v9]"),
    (("journal_list", "./nothing"), f"journal_list: {NO_FILE}"),
    (("journal_list", "."), "journal_list: .: is a directory"),
    (("journal_dump", "./nothing"), f"journal_dump: {NO_FILE}"),
    (("journal_dump", "."), "journal_dump: .: is a directory"),
    (("journal_diff", "-", "./nothing"), f"journal_diff: {NO_FILE}"),
    (("journal_diff", ".", "-"), "journal_diff: .: is a directory"),
    (("journal", "dump", "./nothing"), f"journal dump: {NO_FILE}"),
    (("journal", "list", "./nothing"), f"journal list: {NO_FILE}"),
    (("journal_show", "./nothing"), f"journal_show: {NO_FILE}"),
)

# What bash makes of the last word, with the completion of a program: the folder of the files, then the words.
COMPLETE = """. "$1/$2.bash" && shift && COMP_WORDS=("$@") && COMP_CWORD=$(($# - 1)) &&
"_$1" && printf "%s\\n" "${COMPREPLY[@]}" """

# The function with which zsh completes a command: the folder of the files, then the command.
ZSH = 'fpath=("$1" $fpath) && autoload -Uz compinit && compinit -D -u && print -r -- "$_comps[$2]"'

# What `--library` leaves out, by a part of its path.
OF_PROGRAMS = re.compile("^bin/|/man1/|completion|/zsh/|/wireshark/|^share/pendratsoa/")


class Installation:
    """What is installed below a folder, used in an empty environment."""

    def __init__(self, check: checks.Check):
        self.check = check
        self.prefix = check.work / "a prefix"
        headers = (pathlib.Path(f"include/{name}.h").read_text() for name in ("pendratsoa", "pendratsoa_reader"))
        self.calls = re.findall(
            r"^(?:int64_t|static inline .*?) \*?(journal_[a-z_]*[a-z])\(", "".join(headers), re.M
        )
        self.pages = (*INSTALLED, *crates.PAGES, "pendratsoa", *self.calls)

    def install(self, name: str, *words: str | pathlib.Path, **env: str) -> None:
        """Counts a run of scripts/install.sh."""
        path = {"PATH": os.environ["PATH"]}
        self.check.command(name, ["sh", "scripts/install.sh", *words], env={**path, **env})

    def programs(self) -> None:
        """What the programs print, their errors and statuses."""
        given = (STREAMS / "replay").read_bytes()
        texts = [(words, of.encode() if isinstance(of, str) else of.read_bytes()) for words, of in PRINTS]
        results = [
            *((words, checks.Run(0, text, b"")) for words, text in texts),
            *((words, checks.Run(2, b"", f"{line}\n".encode())) for words, line in ERRORS),
        ]
        for (name, *words), expected in results:
            env = {"PATH": os.environ["PATH"]}
            ended = checks.run([self.prefix / "bin" / name, *words], given, env=env, cwd=self.check.work)
            self.check.case(f"{' '.join(map(str, (name, *words)))}, installed", ended == expected, ended)

    def man_pages(self) -> None:
        """Each program and each function has a page of its own, which man finds and mandoc finds nothing wrong with."""
        pages = self.prefix / "share" / "man"
        for name in self.pages:
            self.check.case(f"the man page of {name}", any(pages.rglob(f"{name}.[13]")))
        names = {page.stem for page in (pages / "man3").iterdir()}
        self.check.case("no other man page of the library", names == {"pendratsoa", *self.calls}, names)
        for name in self.calls:
            lines = (pages / "man3" / f"{name}.3").read_text().splitlines()
            self.check.case(f"{name} has a page of its own", any(line.startswith(f"{name} \\- ") for line in lines))
        if self.check.has("man", "the man pages by man"):
            env = {**os.environ, "LC_ALL": "C", "MANPATH": str(pages), "MANWIDTH": "80"}
            for name in self.pages:
                ended = checks.run(["man", "--warnings", name], env=env)
                is_right = ended.status == 0 and not ended.err and name.encode() in ended.out
                self.check.case(f"man {name}", is_right, ended)
            for name in (*crates.LINKS, *crates.PAGES):
                words = name.split("_")
                pages_of = [checks.run(["man", *each], env=env) for each in ([name], words)]
                is_right = pages_of[0] == pages_of[1] and pages_of[0].status == 0 and bool(pages_of[0].out)
                self.check.case(f"man {' '.join(words)}", is_right, pages_of[1])
        if self.check.has("mandoc", "the man pages by mandoc"):
            self.check.command("mandoc -T lint", ["mandoc", "-T", "lint", *sorted(pages.glob("man?/*.[13]"))])

    def completed(self, *words: str) -> list[str]:
        """What bash makes of the last word."""
        folder = self.prefix / "share" / "bash-completion" / "completions"
        return sorted(checks.run(["bash", "-c", COMPLETE, "bash", folder, *words]).out.decode().splitlines())

    def bash(self) -> None:
        """Completion in bash: the options and versions are those that the program's help lists."""
        if not self.check.has("bash", "completion in bash"):
            return
        by_word = [name.split("_") for name in (*crates.LINKS, *crates.PAGES)]
        for words in (*([name] for name in INSTALLED), ["journal", "list"], *by_word):
            name = " ".join(words)
            text = checks.run([self.prefix / "bin" / words[0], *words[1:], "--help"]).out.decode()
            text = text.partition("\nExamples:")[0]
            options = sorted(set(re.findall("--[a-z-]+", text)))
            self.check.same(f"the options of {name} in bash", options, self.completed(*words, "--"))
            if name != "journal":
                listed = re.search(r"--protocol .*?\[possible values: ([^]]*)\]", text, re.DOTALL)
                # the help of journal_view has no list
                versions = re.split(r",\s+", listed[1]) if listed else [str(version) for version in range(5, 10)]
                self.check.same(f"the versions of {name} in bash", versions, self.completed(*words, "--protocol", ""))
        names = ["list", "redact", "describe", "get", "explain", "schema", "renumber", *(words[1] for words in by_word)]
        names.sort()
        self.check.same("the subcommands of journal help in bash", names, self.completed("journal", "help", ""))
        self.check.same("a subcommand of journal in bash", ["dump"], self.completed("journal", "du"))
        types = sorted(list_stream.type_names().values())
        self.check.same("the types of journal_dump in bash", types, self.completed("journal_dump", "--type", ""))
        found = self.completed("journal_dump", "--type", "Inp")
        self.check.same("a type of journal_dump in bash", ["InputCommand"], found)

    def zsh(self) -> None:
        """Completion in zsh is found, and can be read."""
        if not self.check.has("zsh", "completion in zsh"):
            return
        folder = self.prefix / "share" / "zsh" / "site-functions"
        env = {**os.environ, "HOME": str(self.check.work)}
        for name in INSTALLED:
            crate = crates.crate_of(name)
            found = checks.run(["zsh", "-f", "-c", ZSH, "zsh", folder, name], env=env).out.decode()
            self.check.same(f"zsh finds the completion of {name}", f"_{crate}\n", found)
            self.check.command(f"the completion of {name} for zsh", ["zsh", "-n", folder / f"_{crate}"])

    def below_destdir(self, names: list[str]) -> None:
        """Below DESTDIR there is the same, and pkg-config's file has the place where it will be."""
        root = self.check.work / "root"
        if self.check.has("make", "make install"):
            self.check.command("make install below DESTDIR", ["make", "install", "PREFIX=/usr", f"DESTDIR={root}"])
        else:
            self.install("install.sh below DESTDIR", "/usr", DESTDIR=str(root))
        self.check.same("what is installed below DESTDIR", names, checks.names_below(root / "usr"))
        file = (root / "usr" / "lib" / "pkgconfig" / "pendratsoa.pc").read_text()
        self.check.case("the prefix below DESTDIR", "prefix=/usr" in file.splitlines(), file)
        self.install("install.sh --uninstall below DESTDIR", "--uninstall", "/usr", DESTDIR=str(root))
        left = checks.names_below(root)
        self.check.case("nothing is left below DESTDIR", not left, left)

    def by_a_narrow_mask(self) -> None:
        """By the mask 077 folders are for all, as the files; and a slash after the folder of the libraries is none."""
        folder = self.check.work / "masked"
        script = 'umask 077; exec sh scripts/install.sh --library --libdir lib/ "$1"'
        self.check.command("install.sh by the mask 077", ["sh", "-c", script, "sh", folder])
        folders = [path for path in [folder, *folder.rglob("*")] if path.is_dir()]
        closed = [path for path in folders if path.stat().st_mode & 0o055 != 0o055]
        self.check.case("its folders are for all", not closed, closed)
        files = [each / "lib" / "pkgconfig" / "pendratsoa.pc" for each in (folder, self.prefix)]
        self.check.same("the file of pkg-config by --libdir lib/", *(file.read_text() for file in files))


def main(check: checks.Check) -> None:
    for name in checks.PROGRAMS:
        check.program(name)
    check.static_library()
    installation = Installation(check)
    prefix = installation.prefix
    other = prefix / "bin" / "other"
    other.parent.mkdir(parents=True)
    other.write_text("other\n")
    installation.install("install.sh", prefix)
    installation.install("install.sh again", prefix)
    check.stop_if_failed()

    installation.programs()
    installation.man_pages()
    installation.bash()
    installation.zsh()
    names = [name for name in checks.names_below(prefix) if name != "bin/other"]
    installation.below_destdir(names)
    installation.by_a_narrow_mask()

    # `--library` installs the rest of it
    library = check.work / "library"
    installation.install("install.sh --library", "--library", library)
    of_library = [name for name in names if not OF_PROGRAMS.search(name)]
    check.same("what --library installs", of_library, checks.names_below(library))

    # removed, and nothing but that
    installation.install("install.sh --uninstall", "--uninstall", prefix)
    check.same("what is there then", ["bin/other"], checks.names_below(prefix))


if __name__ == "__main__":
    checks.perform(main)
