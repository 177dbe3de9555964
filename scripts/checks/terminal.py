#!/usr/bin/env python3
"""The programs on a terminal: a journal whose texts hold what a terminal takes as commands; notes, colors, progress.

A journal is somebody else's bytes. Each test runs a program with a pseudo-terminal as its standard output, its standard
error or both, and compares all of what is shown with what the same run writes to a pipe.
"""
import errno
import json
import os
import pathlib
import pty
import re
import subprocess
import tempfile
import termios
import threading
import time
import unittest

import checks
import taken

PROGRAMS = ("journal_list", "journal_dump", "journal_diff", "journal_make")
LIST, DUMP, DIFF, MAKE = map(checks.program_path, PROGRAMS)
STREAMS = checks.ROOT / "examples" / "streams"
FOLDER = tempfile.TemporaryDirectory()
WORK = pathlib.Path(FOLDER.name)

# the characters that a terminal may take as commands, as docs/PROGRAMS.md lists them
RANGES = [(0, 0x1F), (0x7F, 0x9F), (0x61C, 0x61C), (0x200E, 0x200F), (0x2028, 0x202E), (0x2066, 0x2069)]
STEERING = [chr(code) for first, last in RANGES for code in range(first, last + 1)]
# the characters next to them, and some that are shown as they are
SHOWN = [
    chr(code) for code in (0x20, 0x7E, 0xA0, 0x61B, 0x61D, 0x200D, 0x2010, 0x2027, 0x202F, 0x2065, 0x206A, 0x1F600)
]
HOSTILE = "".join(f"{c}." for c in STEERING + SHOWN)
HEAD = (
    "Found a mismatch between the code paths taken during the previous execution and the paths taken during this"
    " execution.\nThis typically happens when some parts of the code are non-deterministic.\n"
)


def escaped(text):
    """A text as a terminal shows it."""
    return "".join(f"\\u{{{ord(c):x}}}" if c in STEERING else c for c in text)


def escaped_json(text):
    """Lines of JSON as a terminal shows them."""
    return "".join(f"\\u{ord(c):04x}" if c in STEERING and c != "\n" else c for c in text)


ANYWAY = "journal_dump: it is dumped all the same; with --strict the status is 2\n"


class Terminal:
    """A pseudo-terminal that changes nothing of what is written to it."""

    def __init__(self):
        self.master, self.slave = pty.openpty()
        modes = termios.tcgetattr(self.slave)
        modes[1] &= ~termios.OPOST
        termios.tcsetattr(self.slave, termios.TCSANOW, modes)
        self.shown = b""
        self.reader = threading.Thread(target=self.read, daemon=True)
        self.reader.start()

    def read(self):
        """Reads until the last program has closed the terminal."""
        while True:
            try:
                got = os.read(self.master, 65536)
            except OSError:
                return
            if not got:
                return
            self.shown += got

    def end(self):
        """All that was shown."""
        os.close(self.slave)
        self.reader.join(60)
        os.close(self.master)
        return self.shown


def run(*words, out=False, err=False, data=b"", closed=(), term="dumb", **more):
    """Runs a program on these bytes, with a terminal where `out` and `err` say so: status, output and errors."""
    environment = {k: v for k, v in os.environb.items() if k not in (b"NO_COLOR", b"TERM")}
    if term is not None:
        environment[b"TERM"] = term.encode()
    environment.update({name.encode(): value for name, value in more.items()})

    def close():
        for descriptor in closed:
            os.close(descriptor)

    output, errors = Terminal() if out else None, Terminal() if err else None
    process = subprocess.Popen(
        [word if isinstance(word, bytes) else str(word).encode() for word in words],
        stdin=subprocess.PIPE,
        stdout=output.slave if out else subprocess.PIPE,
        stderr=errors.slave if err else subprocess.PIPE,
        env=environment,
        preexec_fn=close,
    )
    piped = process.communicate(data, timeout=120)
    shown = [terminal.end() if terminal else piped[at] for at, terminal in enumerate((output, errors))]
    return process.returncode, shown[0].decode(), shown[1].decode()


def journal(name, *lines):
    """The path of a journal of these lines of JSON, made by journal_make."""
    text = "".join(json.dumps(line) + "\n" for line in lines)
    with open(WORK / name, "wb") as output:
        subprocess.run([MAKE], input=text.encode(), stdout=output, check=True)
    return WORK / name


INPUT = {"type": "InputCommand", "message": {"value": {"content": {"text": "input"}}}}


def call(handler, **more):
    """The line of a call of a handler of this name."""
    return {"type": "CallCommand", "message": {"serviceName": "greeter", "handlerName": handler, **more}}


def set_state(key, value):
    """The line of a command that sets a state."""
    return {"type": "SetStateCommand", "message": {"key": {"text": key}, "value": {"content": {"text": value}}}}


class Programs(unittest.TestCase):
    maxDiff = None

    def same_but_escaped(self, escape, *words, status=0):
        """What a run shows on a terminal is what it writes to a pipe, escaped so."""
        piped = run(*words)
        shown = run(*words, out=True)
        self.assertEqual((piped[0], shown[0]), (status, status))
        self.assertEqual(shown[1], escape(piped[1]))
        self.assertEqual(shown[2], piped[2])
        return piped[1], shown[1]

    def test_dump(self):
        stream = journal("dumped", INPUT, call(HOSTILE, name=HOSTILE), set_state(HOSTILE, HOSTILE))
        for options in (), ("--text",), ("--pretty",), ("--text", "--pretty"):
            with self.subTest(options=options):
                piped, shown = self.same_but_escaped(escaped_json, DUMP, *options, stream)
                self.assertEqual({c for c in shown if c in STEERING}, {"\n"})
                self.assertIn("\x7f.\x80.", piped)
        lines = [json.loads(line) for line in run(DUMP, "--text", stream, out=True)[1].splitlines()]
        self.assertEqual(lines[1]["message"]["handlerName"], HOSTILE)
        self.assertEqual(lines[2]["message"]["key"], {"text": HOSTILE})

    def test_bytes_that_are_no_text(self):
        stream = journal("no_text", {"code": 64513, "bytes": "G1td/8KbMm0="})
        for options in (), ("--text",):
            self.same_but_escaped(escaped_json, DUMP, *options, stream)

    def test_list(self):
        stream = journal("listed", INPUT, call(HOSTILE), {"code": 64513, "bytes": {"text": HOSTILE}})
        piped, _ = self.same_but_escaped(escaped_json, LIST, stream)
        self.assertTrue(piped.endswith("\nrest 0\n"))

    def compared(self, recorded, replayed):
        """The text of two calls of handlers with these names, and then the same as a terminal shows it."""
        head = f"command 1: {HEAD}- The mismatch happened while executing 'call' (index '1')\n- Difference:\n"
        lines = (f"   handler_name: {a} != {b}\n" for a, b in [(recorded, replayed)])
        shown = (f"   handler_name: {a} != {b}\n" for a, b in [(escaped(recorded), escaped(replayed))])
        return head + "".join(lines), head + "".join(shown)

    def test_diff(self):
        recorded = journal("recorded", INPUT, call(HOSTILE))
        replayed = journal("replayed", INPUT, call("x" + HOSTILE))
        piped, shown = self.compared(HOSTILE, "x" + HOSTILE)
        self.assertEqual(run(DIFF, recorded, replayed), (1, piped, ""))
        self.assertEqual(run(DIFF, "--verdict", recorded, replayed, out=True), (1, shown, ""))
        piped, shown = self.same_but_escaped(escaped_json, DIFF, "--json", recorded, replayed, status=1)
        self.assertEqual(json.loads(shown)["fields"], json.loads(piped)["fields"])
        self.assertEqual(json.loads(shown)["fields"][0]["recorded"], HOSTILE)

    def test_diff_of_values(self):
        recorded = journal("value", INPUT, set_state("key", HOSTILE))
        replayed = journal("other_value", INPUT, set_state("key", "red"))
        for words in ("--verdict",), ("--values=whole",):
            status, shown, _ = run(DIFF, *words, recorded, replayed, out=True)
            self.assertEqual(status, 1)
            self.assertTrue(shown.endswith(f"\n   value: '{escaped(HOSTILE)}' != 'red'\n"), shown)

    def test_what_moved(self):
        """By default a terminal shows what moved, below the names of the journals, and long values in short."""
        recorded = journal(f"recorded{HOSTILE[2:20]}", INPUT, set_state("key", "\x1b" * 90 + "one\x1b"))
        replayed = journal("two", INPUT, set_state("key", "\x1b" * 90 + "two\x1b"))
        around = "\\u{1b}" * 20
        heading = f"--- recorded: {escaped(str(recorded))}\n+++ replayed: {replayed}\n"
        shown = (
            "the replay has one command changed, SetStateCommand 'key', command 1; none comes after it\n"
            "  1 the same, recorded 0, replayed 0\n"
            "! changed SetStateCommand, recorded 1 at offset 17, replayed 1 at offset 17\n"
            f"   value: at byte 90 of 94: ..{around}[one]\\u{{1b}}' != ..{around}[two]\\u{{1b}}'\n"
        )
        for words in (), ("--all",), ("--values", "short"), ("--color=never",):
            with self.subTest(words=words):
                self.assertEqual(run(DIFF, *words, recorded, replayed, out=True), (1, heading + shown, ""))
        same = "same, 2 commands\n  2 the same, recorded 0, replayed 0\n"
        self.assertEqual(run(DIFF, recorded, recorded, out=True), (0, same, ""))
        first, second, _ = heading.split("\n")
        _, colored, _ = run(DIFF, recorded, replayed, out=True, term="xterm")
        self.assertTrue(colored.startswith(f"\x1b[31m{first}\x1b[0m\n\x1b[32m{second}\x1b[0m\n\x1b[1mthe replay"))
        # a pipe has the verdict, and no names with what moved
        self.assertTrue(run(DIFF, recorded, replayed)[1].startswith("command 1: Found a mismatch"))
        self.assertTrue(run(DIFF, "--all", recorded, replayed)[1].startswith("the replay has one command changed"))
        # a line of JSON is the verdict everywhere
        self.same_but_escaped(escaped_json, DIFF, "--json", recorded, replayed, status=1)
        self.same_but_escaped(escaped_json, DIFF, "--json", "--all", recorded, replayed, status=1)

    def test_a_value_looks_like_no_line(self):
        forged = "greet != greet\n   service_name: A"
        recorded, replayed = journal("forged", INPUT, call(forged)), journal("greet", INPUT, call("greet"))
        piped, shown = self.compared(forged, "greet")
        self.assertEqual(run(DIFF, recorded, replayed)[1], piped)
        self.assertEqual(run(DIFF, "--verdict", recorded, replayed, out=True)[1], shown)
        self.assertEqual(len(shown.splitlines()), len(piped.splitlines()) - 1)

    def test_colors(self):
        recorded, replayed = journal("one", INPUT, call("a\x1bb")), journal("two", INPUT, call("a\nb"))
        _, plain = self.compared("a\x1bb", "a\nb")
        first, rest = plain[len("command 1") :], ""
        before, rest = first.split("a\\u{1b}b")
        between, after = rest.split("a\\u{a}b")
        colored = (
            f"\x1b[1mcommand 1\x1b[0m{before}\x1b[31ma\\u{{1b}}b\x1b[0m{between}\x1b[32ma\\u{{a}}b\x1b[0m{after}"
        )
        words = DIFF, "--verdict", recorded, replayed
        self.assertEqual(run(*words, out=True, term="xterm"), (1, colored, ""))
        self.assertEqual(run(*words, out=True, term="xterm", NO_COLOR=b""), (1, colored, ""))
        self.assertEqual(run(*words, "--color=always", out=True), (1, colored, ""))
        for environment in {"NO_COLOR": b"1"}, {"NO_COLOR": b"\xff"}, {"TERM": b""}, {"term": None}:
            with self.subTest(environment=environment):
                term = environment.pop("term", "xterm")
                self.assertEqual(run(*words, out=True, term=term, **environment), (1, plain, ""))
        self.assertEqual(run(*words, "--color=never", out=True, term="xterm"), (1, plain, ""))
        same = "\x1b[32msame, 2 commands\x1b[0m\n"
        self.assertEqual(run(DIFF, "--verdict", recorded, recorded, out=True, term="xterm"), (0, same, ""))

    def test_make_writes_to_no_terminal(self):
        line = json.dumps(INPUT).encode() + b"\n"
        said = "journal_make: the stream is not written to a terminal: redirect it\n"
        self.assertEqual(run(MAKE, out=True, data=line), (2, "", said))
        self.assertEqual(run(MAKE, WORK / "nothing", out=True), (2, "", said))
        self.assertEqual(run(MAKE, "--version", out=True)[0], 0)

    def test_errors(self):
        member = json.dumps({"type": "InputCommand", "message": {f"a{HOSTILE}": 1}}, ensure_ascii=False).encode()
        path = HOSTILE.replace("\0.", "")
        reason = f"{os.strerror(errno.ENAMETOOLONG)} (os error {errno.ENAMETOOLONG})"
        cases = [
            (1, f"journal_make: -:1: message.a{HOSTILE}: unknown member\n", (MAKE,), member),
            (2, f"journal_dump: {path}: {reason}\n", (DUMP, path), b""),
            (2, f"journal_diff: {path}: {reason}\n", (DIFF, "-", path), b""),
            (2, f"journal_list: ./{path}: {reason}\n", (LIST, f"./{path}"), b""),
        ]
        for status, said, words, data in cases:
            with self.subTest(words=words[0]):
                self.assertEqual(run(*words, data=data)[::2], (status, said))
                shown = run(*words, data=data, err=True)[::2]
                self.assertEqual(shown, (status, escaped(said[:-1]) + "\n"))

    def test_usage(self):
        option = "--" + HOSTILE.replace("\0.", "")
        piped, shown = run(DUMP, option), run(DUMP, option, err=True)
        self.assertEqual((piped[0], shown[0]), (2, 2))
        self.assertEqual(shown[2], "".join(c if c == "\n" else escaped(c) for c in piped[2]))

    def test_no_journal(self):
        text = WORK / "text"
        text.write_bytes(b"\x04\x00" + b"This is no journal, but a text.")
        rest = "offset 0: 33 bytes after the last whole item"
        version = "is it a journal of version"
        status, _, said = run(DUMP, text)
        self.assertEqual(
            (status, said), (0, f"journal_dump: {rest}\njournal_dump: no message in it; {version} 8?\n{ANYWAY}")
        )
        self.assertTrue(run(DUMP, "--protocol", "9", "--strict", text)[2].endswith(f"in it; {version} 9?\n"))
        status, _, said = run(DIFF, text, STREAMS / "recorded", err=True)
        self.assertEqual((status, said), (2, self.no_message("recorded", rest, version)))
        status, shown, said = run(DIFF, STREAMS / "recorded", text, out=True)
        self.assertEqual((status, shown, said), (2, "", self.no_message("replayed", rest, version)))
        empty = "journal_diff: the replayed journal is empty\n"
        self.assertEqual(run(DIFF, STREAMS / "recorded", "/dev/null")[2], empty)
        self.assertEqual(run(DUMP, "/dev/null")[2], "")

    def no_message(self, side, rest, version):
        """What journal_diff says of a journal without messages."""
        return (
            f"journal_diff: the {side} journal, {rest}\n"
            f"journal_diff: no message in the {side} journal; {version} 8?\n"
        )

    def test_rest(self):
        for size, is_shown in (64, True), (65, False):
            rest = WORK / "rest"
            # a header of a message that is longer
            rest.write_bytes(b"\x04\x00\0\0\0\0\xff\xff".ljust(size, b"x"))
            said = f"journal_dump: offset 0: {size} bytes after the last whole item"
            asked = f"journal_dump: no message in it; is it a journal of version 8?\n{ANYWAY}"
            _, piped, errors = run(DUMP, rest)
            self.assertEqual(errors, f"{said}\n{asked}")
            self.assertIn('"bytes":', piped)
            _, shown, errors = run(DUMP, rest, out=True)
            if is_shown:
                self.assertEqual((shown, errors), (piped, f"{said}\n{asked}"))
            else:
                self.assertEqual(shown, f'{{"offset":0,"rest":{size}}}\n')
                self.assertEqual(errors, f"{said}, not shown on a terminal\n{asked}")
            self.assertNotIn("terminal", run(DUMP, "--no-payload", rest, out=True)[2])

    def test_progress_of_a_slow_input(self):
        """An input that takes more than a second: a line tells how much is read, and is removed at the end."""
        data = (STREAMS / "recorded").read_bytes()
        runs = []
        for words in (LIST, "3"), (DUMP,), (DIFF, "-", STREAMS / "recorded"):
            for terminal in Terminal(), None:
                process = subprocess.Popen(
                    words,
                    stdin=subprocess.PIPE,
                    stdout=subprocess.PIPE,
                    stderr=terminal.slave if terminal else subprocess.PIPE,
                    env={**os.environ, "TERM": "xterm"},
                )
                process.stdin.write(data[:9])
                process.stdin.flush()
                runs.append((words, terminal, process))
        # from when each has begun to read, which may be late
        for _, _, process in runs:
            taken.until_taken(process, process.stdin)
        time.sleep(2)
        for words, terminal, process in runs:
            output, errors = process.communicate(data[9:], timeout=120)
            with self.subTest(words=words, terminal=terminal):
                piped = subprocess.run(words, input=data, stdout=subprocess.PIPE, check=True).stdout
                self.assertEqual((process.returncode, output), (0, piped))
                if not terminal:
                    self.assertEqual(errors, b"")
                    continue
                name = os.path.basename(words[0]).encode()
                # it may be shown more than once
                self.assertRegex(terminal.end(), rb"\A(\r" + name + rb": read 0 MB\x1b\[K)+\r\x1b\[K\Z")

    def test_progress_of_files(self):
        zeros = WORK / "zeros"
        with open(zeros, "wb") as file:
            file.truncate(3_000_000_000)
        terminal = Terminal()
        process = subprocess.Popen(
            [DIFF, zeros, zeros], stdout=terminal.slave, stderr=terminal.slave, env={**os.environ, "TERM": "xterm"}
        )
        line = re.compile(rb"\rjournal_diff: read ([0-9]+) of 6000 MB\x1b\[K")
        for _ in range(600):
            found = line.search(terminal.shown)
            if found or process.poll() is not None:
                break
            threading.Event().wait(0.1)
        process.kill()
        process.wait()
        shown = terminal.end()
        self.assertTrue(found, shown[:300])
        self.assertLess(int(found[1]), 6000)


if __name__ == "__main__":
    checks.perform_tests(PROGRAMS)
