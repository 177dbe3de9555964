#!/usr/bin/env python3
"""When journal_list and the like write: an item's output is there before they read again.

The input is a fifo into which one whole item and a part of the next one are written. What the program writes of that
item has to be there before the fifo gets more.
"""
import os
import select
import subprocess
import tempfile
import time
import unittest

import checks

STREAMS = checks.ROOT / "examples" / "streams"

# A program that has not written by then is one that waits: a bound for failures, and no measure of speed.
SECONDS = 120

PROGRAMS = ("journal_list", "journal_dump", "journal_make", "journal_show")
LIST, DUMP, MAKE, SHOW = map(checks.program_path, PROGRAMS)

HEADER = 8


def items_of(stream):
    """The items of a stream without unknown codes, each with its header."""
    items = []
    while stream:
        end = HEADER + int.from_bytes(stream[4:HEADER], "big")
        items.append(stream[:end])
        stream = stream[end:]
    return items


def lines_of(name):
    """The lines of a file of examples/streams, each with its newline."""
    return (STREAMS / name).read_bytes().splitlines(keepends=True)


class Waiting(unittest.TestCase):
    def wait(self, words, parts, outputs, by_path=False):
        """Runs a program on a fifo that gets `parts` one by one, each with the first half of the next one; after each
        the output has to be just that of all parts so far."""
        with tempfile.TemporaryDirectory() as folder:
            fifo = os.path.join(folder, "fifo")
            os.mkfifo(fifo)
            # for both, since one end would wait for the other
            reader = os.open(fifo, os.O_RDONLY | os.O_NONBLOCK)
            writer = os.open(fifo, os.O_WRONLY)
            os.set_blocking(reader, True)
            source = {"stdin": subprocess.DEVNULL} if by_path else {"stdin": reader}
            words = [*words, fifo] if by_path else words
            with subprocess.Popen(words, stdout=subprocess.PIPE, stderr=subprocess.PIPE, **source) as program:
                try:
                    written = expected = b""
                    begun = 0
                    for place, (part, output) in enumerate(zip(parts, outputs)):
                        following = parts[place + 1] if place + 1 < len(parts) else b""
                        half = len(following) // 2
                        os.write(writer, part[begun:] + following[:half])
                        begun = half
                        expected += output
                        written += self.read(program.stdout, len(expected) - len(written))
                        self.assertEqual(written, expected, f"{words}: after part {place + 1}")
                    os.close(writer)
                    writer = None
                    os.close(reader)
                    reader = None
                    rest, errors = program.communicate(timeout=SECONDS)
                    self.assertEqual(rest, b"".join(outputs[len(parts) :]), f"{words}: at the end")
                    self.assertEqual((errors, program.returncode), (b"", 0), f"{words}")
                finally:
                    for end in (writer, reader):
                        if end is not None:
                            os.close(end)
                    program.kill()

    def read(self, output, length):
        """What comes of `length` bytes before the time is over."""
        found = b""
        limit = time.monotonic() + SECONDS
        while len(found) < length:
            if not select.select([output], [], [], max(0, limit - time.monotonic()))[0]:
                break
            data = os.read(output.fileno(), length - len(found))
            if not data:
                break
            found += data
        return found

    def wait_by_both(self, words, parts, outputs):
        """The same with the fifo as the standard input and as a file."""
        for by_path in (False, True):
            with self.subTest(words=words, by_path=by_path):
                self.wait(words, parts, outputs, by_path)

    def setUp(self):
        self.items = items_of((STREAMS / "replay").read_bytes())
        self.dump = lines_of("replay.dump")
        self.assertEqual(len(self.items), 3)

    def test_list(self):
        self.wait_by_both([LIST], self.items, lines_of("replay.stdout"))

    def test_list_in_small_chunks(self):
        for size in ("1", "7", "65536"):
            self.wait([LIST, "-", size], self.items, lines_of("replay.stdout"))

    def test_list_with_a_skipped_message(self):
        skipped = b"\0\x08\0\0\0\0\0\x08" + bytes(range(8))
        parts = [skipped, *self.items]
        self.wait([LIST, "-", "v9"], parts, [b"skipped 0x8 8\n", *lines_of("replay.stdout")])

    def test_dump(self):
        self.wait_by_both([DUMP], self.items, self.dump)

    def test_pretty_dump(self):
        words = [DUMP, "--pretty", "--no-payload", "--type", "InputCommand"]
        item = b'{\n  "offset": 27,\n  "type": "InputCommand",\n  "code": 1024,\n  "length": 9\n}\n'
        self.wait(words, self.items, [b"", item, b"", b""])

    def test_show(self):
        lines = [
            b'#0 Start "key" key knownEntries=1 key\n',
            b'#1 InputCommand "input"\n',
            b"#2 GetLazyStateCompletionNotification completes id 1\n",
        ]
        self.wait_by_both([SHOW], self.items, lines)

    def test_make(self):
        self.wait_by_both([MAKE], self.dump, [*self.items, b""])


if __name__ == "__main__":
    checks.perform_tests(PROGRAMS)
