"""How the checks files and release use what is installed: commands with what they print, by the page of the programs
and by the stored examples, the programs of other pages, and the page that opens journals, in a browser."""
from __future__ import annotations

import base64
import collections.abc
import dataclasses
import functools
import json
import pathlib
import re
import shlex
import sys
import typing

import checks
import replayed
import shown

sys.path.append(str(checks.ROOT / "view"))

import browser  # noqa: E402
import driver  # noqa: E402

STREAMS = pathlib.Path("examples/streams")
PAGE = pathlib.Path("docs/PROGRAMS.md")

# The names in bin, the last of a script.
INSTALLED = (*checks.PROGRAMS, "journal_view")

# The commands of every system with which the page gives a program its input, or takes a part of the output.
TOOLS = ("grep", "head", "printf", "sed")

# Runs a command of INSTALLED or TOOLS, which is given these bytes.
Runner = collections.abc.Callable[[list[str], bytes], checks.Run]


class Line(typing.NamedTuple):
    """The commands that the pipes of a line join, and the file that the last one writes, or ''."""

    commands: list[list[str]]
    target: str


@dataclasses.dataclass(frozen=True)
class Use:
    """A line of commands, what it prints, and the status of the last one."""

    text: str
    prints: bytes | shown.Shown
    status: int = 0
    # whether one of its programs runs another
    has_child: bool = False

    @functools.cached_property
    def line(self) -> Line:
        return split(self.text)

    @property
    def reads_set(self) -> bool:
        """Whether it reads a descriptor set, which protoc makes."""
        return ".binpb" in self.text

    def outcome(self, run: Runner) -> checks.Run:
        """How its last command ends, or the first one that fails before that."""
        ended = checks.Run(0, b"", b"")
        for command in self.line.commands:
            if ended.status != 0:
                break
            ended = run(command, ended.out)
        return ended

    def is_right(self, ended: checks.Run) -> bool:
        if ended.status != self.status or not ended.out:
            return False
        if isinstance(self.prints, bytes):
            return ended.out == self.prints
        return self.prints.prints(ended.out.decode(errors="replace"))


def split(text: str) -> Line:
    """A line of the page as commands; none where it takes more than pipes, or another command than these."""
    # the standard error is kept apart in any case
    lexer = shlex.shlex(text.replace(" 2> /dev/null", ""), posix=True, punctuation_chars=True)
    lexer.commenters = ""
    lexer.whitespace_split = True
    words = list(lexer)
    *words, target = [*words[:-2], words[-1]] if words[-2:-1] == [">"] else [*words, ""]
    commands: list[list[str]] = [[]]
    for word in words:
        if word == "|":
            commands.append([])
        else:
            commands[-1].append(word)
    is_known = all(command and command[0] in (*INSTALLED, *TOOLS) for command in commands)
    has_more = any(set(word) <= set("();<>|&") for command in commands for word in command if word)
    return Line([], "") if has_more or not is_known else Line(commands, target)


def on_page() -> list[Use]:
    """The commands of the page that can be split, in its order: some read what others have written."""
    found = []
    for each in list(shown.shown(PAGE)):
        line = split(each.command)
        if line.commands and (each.lines or line.target):
            is_difference = line.commands[-1][:2] == ["journal", "diff"] and not each.lines[0].startswith("same")
            found.append(Use(each.command, each, int(is_difference)))
    return found


def stored() -> list[Use]:
    """Uses of the stored examples."""
    replay, recorded, other = (STREAMS / name for name in ("replay", "recorded", "replayed_other_handler"))
    listing, dump = (replay.with_suffix(suffix).read_bytes() for suffix in (".stdout", ".dump"))
    content = json.loads(dump.splitlines()[1])["message"]["value"]["content"]
    same = replayed.cases()[0].printed.splitlines(keepends=True)[-1]
    of_recorded = next(each for each in on_page() if each.text == f"journal show {recorded}")
    return [
        *(Use(f"{name} --version", f"{name} {checks.library_version()}\n".encode()) for name in INSTALLED),
        *(Use(f"{name} {replay}", listing) for name in ("journal_list", "journal list")),
        *(Use(f"{name} {replay}", dump) for name in ("journal_dump", "journal dump")),
        *(Use(f"{name} {replay}.dump", replay.read_bytes()) for name in ("journal_make", "journal make")),
        *(Use(f"{name} {recorded} {recorded}", same.encode()) for name in ("journal_diff", "journal diff")),
        Use(f"journal_show {recorded}", of_recorded.prints),
        Use(f"journal get {replay} 1 value.content", base64.b64decode(content)),
        Use(f"journal_view -o - {replay}.dump", page_of(f"{replay}.dump")),
        Use(f"journal_view -o - {recorded} {other}", page_of(str(recorded), str(other)), has_child=True),
    ]


@functools.cache
def page_of(*journals: str) -> bytes:
    """The page of journals that the maker in this repository writes."""
    return checks.run([sys.executable, "-B", "view/make_page.py", "-o", "-", *journals]).out


def write_sets(check: checks.Check, folder: pathlib.Path) -> None:
    """Writes the descriptor sets of the page into a folder, as it has them made by protoc."""
    for each in shown.shown(PAGE):
        words = shlex.split(each.command)
        if words[0] == "protoc":
            at = words.index("-o") + 1
            words[at] = str(folder / words[at])
            check.command(each.command, words)


def programs(
    check: checks.Check, name: str, folder: pathlib.Path, run: Runner, runs_children: bool = True
) -> None:
    """The programs print what they should, run in a folder that has the examples. Each of them is used, and so is each
    subcommand that the help of journal lists."""
    has_sets = check.has("protoc", f"what reads a descriptor set, {name}")
    if has_sets:
        write_sets(check, folder)
    table = [*stored(), *on_page()]
    for use in table:
        if use.reads_set and not has_sets or use.has_child and not runs_children:
            continue
        ended = use.outcome(run)
        if use.line.target:
            (folder / use.line.target).write_bytes(ended.out)
        wanted = use.prints if isinstance(use.prints, bytes) else "\n".join(use.prints.lines).encode()
        check.case(f"{use.text}, {name}", use.is_right(ended), f"{checks.difference(wanted, ended.out)}\n{ended}")
    words = [command for use in table for command in use.line.commands]
    used = {command[0] for command in words}.difference(TOOLS)
    check.same(f"the programs that are used, {name}", sorted(INSTALLED), sorted(used))
    listed = re.findall(r"^  (\w+)  ", run(["journal", "--help"], b"").out.decode(), re.MULTILINE)
    used = {command[1] for command in words if command[0] == "journal"} - {"--version"}
    check.same(f"the subcommands that are used, {name}", sorted({*listed} - {"help"}), sorted(used))


def program_of(page: str, language: str) -> tuple[str, bytes]:
    """The program of a page that takes other field numbers, and what it prints by the page, b'' where that has none."""
    text = pathlib.Path(page).read_text(encoding="utf-8")
    section = text.partition("\n## Other field numbers\n")[2].partition("\n## ")[0]
    code, _, after = section.partition(f"\n```{language}\n")[2].partition("\n```\n")
    lines = re.search(r"prints:\n\n((?:    .*\n)+)", after)
    word = re.search(r"prints\s`(.*?)`", after)
    printed = re.sub("^    ", "", lines[1], flags=re.MULTILINE) if lines else f"{word[1]}\n" if word else ""
    return f"{code}\n", printed.encode()


def opened(check: checks.Check, page: pathlib.Path) -> None:
    """The page that opens journals shows the dump of a stream, and the difference of two, and requests nothing."""
    try:
        chromium = browser.BROWSERS["chromium"]()
    except driver.NotHere as why:
        check.left_out(page.name, str(why))
        return

    def show(**streams: pathlib.Path) -> None:
        chromium.load(page)
        for name, path in streams.items():
            chromium.choose(f"#{name}", checks.ROOT / path)
        chromium.evaluate("document.getElementById('open').click()")
        chromium.wait("document.body.dataset.ready === 'true'")
        check.case(f"{page.name} has no error", not chromium.messages, chromium.messages)
        requests = [url for url in chromium.requests if not url.startswith(("file:", "about:", "data:", "blob:"))]
        check.case(f"{page.name} requests nothing", not requests, requests)

    with chromium:
        show(recorded=STREAMS / "replay")
        found = chromium.evaluate("document.getElementById('journal-0').textContent")
        check.same(f"{page.name} shows a stream", (STREAMS / "replay.dump").read_text().strip("\n"), found.strip("\n"))
        show(recorded=STREAMS / "recorded", replayed=STREAMS / "replayed_other_handler")
        found = chromium.evaluate("about.verdict.text")
        case = next(each for each in replayed.cases() if each.replayed == "replayed_other_handler")
        # the text that an SDK reports, without the lines before it and the fields after it
        text = re.sub(r"\A(?:.*\n)*?(?=Found )|^field .*\n", "", case.printed, flags=re.MULTILINE).rstrip("\n")
        check.case(f"{page.name} shows a difference", bool(text) and text in found, found)
