#!/usr/bin/env python3
"""Writes a page that shows one journal, or two side by side: view/make_page.py [OPTION].. STREAM [OTHER]

The items are the lines of journal dump, of a stream or of a file that has them already, and of two streams the
difference is what journal diff prints: nothing of a stream is decoded here. The page is one file with its data, style
and script inside, and requests nothing.
"""
import argparse
import base64
import contextlib
import hashlib
import html
import json
import os
import pathlib
import re
import secrets
import shutil
import stat
import string
import subprocess
import sys
import tempfile

# nothing is left next to an installed script
sys.dont_write_bytecode = True
import dumps  # noqa: E402

HERE = pathlib.Path(__file__).resolve().parent
# the repository; of an installed script the folder that has only the version
ROOT = HERE.parent
# what builds the programs; an installed script has none, and takes the program that is installed with it
BUILDER = ROOT / "scripts" / "program.sh"
INSTALLED = HERE.parents[2] / "bin" / "journal" if len(HERE.parents) > 2 else None

# The files of the script, in the order in which they take from each other.
SCRIPTS = (
    "text", "bytes", "items", "compare", "align", "rows", "summary", "copy", "list", "lanes", "tree", "values", "state",
    "detail", "words", "filter", "strip", "address", "top", "keys",
)  # fmt: skip

# How many items a page shows, of all its journals, by default.
ITEMS = 200_000

# How many commands before the first difference of two long journals a page begins.
BEFORE = 1_000

# What a line of journal dump begins with, of an item whose type has a name.
TYPE = re.compile(r'\{"offset":\d+,"type":"(\w+)"')

# What the first line of journal diff says: the kind of the verdict, by a pattern that has the index of the command.
VERDICTS = (
    ("same", re.compile(r"same, (?P<index>\d+) commands?$")),
    ("recorded ends", re.compile(r"recorded ends at command (?P<index>\d+)$")),
    ("replayed ends", re.compile(r"replayed ends at command (?P<index>\d+)$")),
    ("differs", re.compile(r"command (?P<index>\d+): ")),
    ("recorded malformed", re.compile(r"journal diff: the recorded command (?P<index>\d+) is malformed$")),
    ("replayed malformed", re.compile(r"journal diff: the replayed command (?P<index>\d+) is malformed$")),
)


class Failure(Exception):
    """Why there is no page: a line for the standard error, and the status."""

    def __init__(self, line, status=2):
        super().__init__(line)
        self.status = status


def parse_arguments(words):
    """The parsed command line."""
    parser = argparse.ArgumentParser(
        prog="run.sh journal view" if BUILDER.exists() else "journal_view",
        description="Writes a page that shows one journal, or two side by side. A journal is a stream, or its dump.",
        formatter_class=lambda prog: argparse.HelpFormatter(
            prog, width=min(79, shutil.get_terminal_size().columns - 1)
        ),
    )
    parser.add_argument("stream", metavar="STREAM", help="a journal; with OTHER the recorded one; - is the input")
    parser.add_argument("other", metavar="OTHER", nargs="?", help="the replayed journal")
    parser.add_argument("-o", "--output", metavar="FILE", default="journal.html", help="the page; - is the output")
    parser.add_argument(
        "--protocol", type=int, default=8, metavar="N", help="the version of the protocol, 8 by default"
    )
    parser.add_argument("--ignore-ids", action="store_true", help="completion ids are not compared")
    parser.add_argument("--ignore-payloads", action="store_true", help="payloads of user data are not compared")
    parser.add_argument(
        "--items", type=int, default=ITEMS, metavar="N", help=f"how many items the page shows, {ITEMS:,} by default"
    )
    parser.add_argument(
        "--from", type=int, dest="begin", metavar="N",
        help="the index of the first command that the page shows; by default the beginning, or, of two journals with "
        f"more items, {BEFORE:,} commands before the first difference",
    )  # fmt: skip
    version = f"journal_view {(ROOT / 'VERSION').read_text(encoding='utf-8').strip()}"
    parser.add_argument("--version", action="version", version=version, help="show the version and exit")
    if BUILDER.exists():
        parser.add_argument("--unproved", action="store_true", help="takes programs that are built without the proofs")
    arguments = parser.parse_args(words)
    if arguments.items < 1:
        parser.error("--items is at least 1")
    if arguments.begin is not None and arguments.begin < 0:
        parser.error("--from is at least 0")
    if arguments.stream == arguments.other == "-":
        parser.error("- is one of two journals at most")
    return arguments


def shown(path):
    """The last part of a path as a page shows it: a byte that is not a text and a hidden character by its number."""
    name = os.fsencode(pathlib.PurePath(path).name).decode("utf-8", "backslashreplace")
    return "".join(one if one.isprintable() else f"\\u{ord(one):04x}" for one in name)


def is_text(path):
    """Whether a path is UTF-8, as the programs take it."""
    try:
        return bool(path.encode())
    except UnicodeEncodeError:
        return False


@contextlib.contextmanager
def opened(path):
    """A path at which the programs can read a journal, more than once: a copy of what comes from a pipe, or whose own
    path they do not take."""
    if path == "-" and sys.stdin is None:
        raise Failure("view: the standard input is closed")
    with contextlib.nullcontext(sys.stdin.buffer) if path == "-" else open(path, "rb") as source:
        if path != "-" and pathlib.Path(path).is_file() and is_text(path):
            yield path
            return
        with tempfile.NamedTemporaryFile() as copy:
            shutil.copyfileobj(source, copy)
            copy.flush()
            yield copy.name


def program(unproved):
    """The path of the program journal: the installed one, or that of a clone, which is built if it is not up to date;
    unproved if that is enough."""
    if not BUILDER.exists():
        if not INSTALLED or not INSTALLED.exists():
            raise Failure(f"view: there is no {INSTALLED or 'program journal'}")
        return str(INSTALLED)
    words = ["sh", str(BUILDER), *(["--unproved"] if unproved else []), "journal"]
    built = subprocess.run(words, stdin=subprocess.DEVNULL, stdout=subprocess.PIPE, encoding="utf-8")
    if built.returncode != 0:
        raise Failure("view: journal cannot be built")
    path = built.stdout.strip()
    if "/unproved/" in path:
        slow = "is built without the proofs: it checks each access, and is hundreds of times slower than with --proved"
        print(f"view: journal {slow}", file=sys.stderr)
    return path


def read_stream(words, path, source, kept, reader):
    """Keeps the lines of a journal, of `path` and read at `source`, as journal dump prints them. Returns what makes the
    journal for the page of them: its name, and the last line, that of the rest."""
    last = None
    words = [*words, "--", source]
    progress = dumps.Progress(shown(path), os.stat(source).st_size)
    with (
        tempfile.TemporaryFile("w+", encoding="utf-8", errors="replace") as notes,
        subprocess.Popen(
            words, stdin=subprocess.DEVNULL, stdout=subprocess.PIPE, stderr=notes, encoding="utf-8"
        ) as dump,
    ):
        for line in dump.stdout:
            if last is not None:
                found = TYPE.match(last)
                kept.add(last, found is not None and reader.is_command(found[1]))
                progress.count(offset_of(last))
            last = line.rstrip("\n")
        dump.wait()
        notes.seek(0)
        said = notes.read()
    progress.end()
    rest = json.loads(last) if dump.returncode == 0 and last is not None else None
    if rest is not None and kept.items == 0 and rest["rest"] > 0:
        # what journal dump says of these bytes would say the same once more
        raise Failure(f"view: {path}: no message in it; is it a journal of version {words[3]}?")
    sys.stderr.write(said)
    if rest is not None and kept.items == 0:
        print(f"view: {path}: the journal is empty", file=sys.stderr)
    if rest is None:
        raise Failure(f"view: {path}: journal dump ended with the status {dump.returncode}", dump.returncode or 1)
    return {"name": shown(path), "rest": rest}


def offset_of(line):
    """The offset of a line of journal dump, which is its first member."""
    return int(line[len('{"offset":') :].partition(",")[0])


def is_dump(source):
    """Whether a file has the lines of a dump, and no stream."""
    with open(source, "rb") as file:
        return dumps.DUMP.match(file.read(4096)) is not None


def read_dump(path, source, kept, reader):
    """Keeps the lines of a dump, as `read_stream` does."""
    try:
        with open(source, "rb") as file:
            return dumps.read_dump(file, shown(path), reader, kept, os.fstat(file.fileno()).st_size)
    except dumps.Wrong as wrong:
        raise Failure(f"view: {path}:{wrong}") from None


def verdict_of(text):
    """What journal diff printed, with its kind and the index of the command that it names; None for any other text."""
    for kind, pattern in VERDICTS:
        if match := pattern.match(text.split("\n", 1)[0]):
            return {"kind": kind, "index": int(match["index"]), "text": text}
    return None


class Comparison:
    """What journal diff says of two journals."""

    def __init__(self, words, paths):
        self.diff = subprocess.run(
            [*words, "--", *paths], stdin=subprocess.DEVNULL, capture_output=True, encoding="utf-8", errors="replace"
        )
        self.found = verdict_of((self.diff.stdout or self.diff.stderr).rstrip("\n"))

    def verdict(self):
        """The verdict, or why there is none: a command that is malformed."""
        if self.found is None:
            sys.stderr.write(self.diff.stderr)
            raise Failure(f"view: journal diff ended with the status {self.diff.returncode}", self.diff.returncode or 1)
        return self.found

    def begin(self, most):
        """The command that a page of long journals begins with, each with `most` items, or an earlier one."""
        differs = self.found is not None and self.found["kind"] != "same"
        return max(0, self.found["index"] - min(BEFORE, most // 10)) if differs else 0


def script_of(words, paths):
    """The differences that journal diff --all finds, in order: of each its change, and how many commands of both
    journals come before it. None where it has none, or more than it looks for."""
    diff = subprocess.run(
        [*words, "--all", "--json", "--", *paths], stdin=subprocess.DEVNULL, capture_output=True, encoding="utf-8",
        errors="replace",
    )  # fmt: skip
    if diff.returncode not in (0, 1):
        return None
    # other ends of lines, as U+2028, may be within a text
    whole, *entries = map(json.loads, diff.stdout.rstrip("\n").split("\n"))
    if not whole["isLeast"]:
        return None
    members = ("change", "recorded", "replayed")
    return [{name: entry[name] for name in members} for entry in entries if entry["change"] != "same"]


def messages_of(version):
    """The types with their directions and their messages at a version, and the messages with their fields."""
    protocol = json.loads((HERE / "protocol.json").read_text(encoding="utf-8"))
    types = {}
    for name, entry in protocol["types"].items():
        earlier = [message for before, message in entry.get("before", {}).items() if version < int(before)]
        types[name] = {"direction": entry["direction"], "message": earlier[0] if earlier else entry["message"]}
    return {"types": types, "messages": protocol["messages"]}


def embedded(text):
    """JSON as the text of a script element: no tag and no comment begins in it."""
    return text.replace("<", "\\u003c")


def content_hash(text):
    """A source of a Content-Security-Policy: the element with exactly this text."""
    return f"'sha256-{base64.b64encode(hashlib.sha256(text.encode()).digest()).decode()}'"


def policy(script, style):
    """The page's Content-Security-Policy: this script, this style, nothing else, and no text that becomes a tag."""
    return (
        f"default-src 'none'; script-src {content_hash(script)}; style-src {content_hash(style)}; "
        "base-uri 'none'; form-action 'none'; require-trusted-types-for 'script'; trusted-types 'none'"
    )


def page(journals, verdict, version, ignores_payloads, script=None):
    """The page's text."""
    code = "\n".join((HERE / "script" / f"{name}.js").read_text(encoding="utf-8") for name in SCRIPTS)
    style = (HERE / "page.css").read_text(encoding="utf-8")
    about = {
        "version": version,
        "ignoresPayloads": ignores_payloads,
        "verdict": verdict,
        # the proved alignment, where journal diff gives one: each difference in order, as an object with `change`
        # (inserted, removed or changed) and how many commands of the `recorded` and the `replayed` come before it,
        # counted from the beginnings of the journals
        "script": script,
        "journals": [{name: value for name, value in journal.items() if name != "lines"} for journal in journals],
        **messages_of(version),
    }
    parts = [
        f'<script type="application/json" id="journal-{side}">\n{embedded(chr(10).join(journal["lines"]))}\n</script>'
        for side, journal in enumerate(journals)
    ]
    return string.Template((HERE / "page.html").read_text(encoding="utf-8")).substitute(
        policy=policy(code, style),
        title=html.escape(" and ".join(journal["name"] for journal in journals)),
        style=style,
        script=code,
        about=embedded(json.dumps(about, separators=(",", ":"))),
        journals="\n".join(parts),
    )


def put(text):
    """Writes a text to the standard output."""
    if sys.stdout is None:
        raise Failure("view: the standard output is closed")
    try:
        sys.stdout.write(text)
        sys.stdout.flush()
    except OSError as error:
        # what is left would be written again at the end
        os.dup2(os.open(os.devnull, os.O_WRONLY), sys.stdout.fileno())
        raise Failure(f"view: the standard output: {error.strerror}") from error


def write_file(path, text):
    """Writes a page to a file, whole or not at all: next to it first, and then in its place. What is there and is not
    a plain file, as a pipe, is written as it is."""
    # a path may lead to the file, and a page stays what it was to others
    real = pathlib.Path(os.path.realpath(path))
    try:
        if real.exists() and not real.is_file():
            real.write_text(text, encoding="utf-8", newline="\n")
            return
        beside = real.with_name(f".{secrets.token_hex(8)}.part")
        try:
            with open(beside, "x", encoding="utf-8", newline="\n") as file:
                file.write(text)
            if real.exists():
                beside.chmod(stat.S_IMODE(real.stat().st_mode))
            beside.replace(real)
        finally:
            beside.unlink(missing_ok=True)
    except OSError as error:
        raise Failure(f"view: {path}: {error.strerror}") from error


def begun_alike(kept, begin):
    """Has the journals of a page begin with the same command: the one asked for, or else the first that all have."""
    first = max(one.first_command for one in kept) if begin is None else begin
    if begin is not None and all(one.commands <= begin for one in kept):
        raise Failure(f"view: there is no command {begin}: --from is its index")
    for one in kept:
        one.begin_at(first)


def run(arguments):
    """Makes the page and writes it."""
    paths = [path for path in (arguments.stream, arguments.other) if path is not None]
    protocol = ["--protocol", str(arguments.protocol)]
    comparison = verdict = script = None
    with contextlib.ExitStack() as files:
        sources = [files.enter_context(opened(path)) for path in paths]
        of_dumps = [is_dump(source) for source in sources]
        # a page of dumps takes no program
        journal = None if all(of_dumps) else program(getattr(arguments, "unproved", False))
        if len(paths) == 2 and not any(of_dumps):
            ignored = {"--ignore-ids": arguments.ignore_ids, "--ignore-payloads": arguments.ignore_payloads}
            options = [*protocol, *(option for option, is_given in ignored.items() if is_given)]
            comparison = Comparison([journal, "diff", *options], sources)
        most = max(1, arguments.items // len(paths))
        begin = arguments.begin
        if begin is None:
            begin = comparison.begin(most) if comparison else 0
        reader = dumps.Reader(messages_of(arguments.protocol))
        kept = [dumps.Lines(most, begin) for _ in paths]
        ends = [
            read_dump(path, source, one, reader)
            if is_lines
            else read_stream([journal, "dump", *protocol], path, source, one, reader)
            for path, source, is_lines, one in zip(paths, sources, of_dumps, kept)
        ]
        begun_alike(kept, arguments.begin)
        journals = [one.journal(**end) for one, end in zip(kept, ends)]
        if comparison:
            verdict = comparison.verdict()
            script = script_of([journal, "diff", *options], sources)
    text = page(journals, verdict, arguments.protocol, arguments.ignore_payloads, script)
    if arguments.output == "-":
        put(text)
    else:
        write_file(arguments.output, text)
        put(f"{arguments.output}\n")


def main(words):
    try:
        run(parse_arguments(words))
    except Failure as error:
        print(error, file=sys.stderr)
        return error.status
    except OSError as error:
        print("view", *([error.filename] if error.filename else []), error.strerror, sep=": ", file=sys.stderr)
        return 2
    return 0


if __name__ == "__main__":
    if sys.stdout is not None:
        # a page is UTF-8 wherever it is written, and the name of a file may be any bytes
        sys.stdout.reconfigure(encoding="utf-8", errors="surrogateescape", newline="\n")
    sys.exit(main(sys.argv[1:]))
