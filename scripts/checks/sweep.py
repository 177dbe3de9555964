"""Many reads and large payloads, in the programs and in the library for C, compared with results that are made here.

    sweep.py LIST DIFF DUMP MAKE [TEST..]
    sweep.py - [TEST..]

The four words are the paths of the programs; with '-' it is the library, by the package for Python, which has to be
installed or in PYTHONPATH. Contracts allow a call to report a failed allocation at any size: so what is tried here is
all that says up to which sizes none does. SWEEP_DIVISOR divides all sizes, for programs that are slow.
"""
import base64
import binascii
import contextlib
import fcntl
import functools
import os
import random
import subprocess
import sys
import tempfile
import unittest

from tally import tell

DIVISOR = int(os.environ.get("SWEEP_DIVISOR", "1"))

# The commands of a journal, of 268 bytes each: 322 MB.
COMMANDS = 1_200_000 // DIVISOR

# The bytes that are read at once where reads are to be many: of that journal 3.2 million reads.
SMALL_READ = 100

# The bytes of a stream that is read byte by byte.
SINGLE_BYTES = 5_000_000 // DIVISOR

# The bytes of a value that is large, which base64 makes without padding.
VALUE = 120_000_000 // DIVISOR // 12 * 12

# The numbers of a list.
NUMBERS = 5_000_000 // DIVISOR

SET_STATE = 0x0403
RUN_COMPLETION = 0x8011

MISMATCH = (
    "Found a mismatch between the code paths taken during the previous execution and the paths taken during this "
    "execution.\nThis typically happens when some parts of the code are non-deterministic.\n"
    "- The mismatch happened while executing 'set state' (index '%d')\n- Difference:\n   value: '%s' != '%s'"
)


def varint(number):
    groups = []
    while number >= 0x80:
        groups.append(number & 0x7F | 0x80)
        number >>= 7
    return bytes([*groups, number])


def record(field, content):
    """A record of a field of bytes, a text or a message."""
    return b"".join([varint(field << 3 | 2), varint(len(content)), content])


def frame(code, payload):
    return b"".join([code.to_bytes(2, "big"), b"\0\0", len(payload).to_bytes(4, "big"), payload])


def set_state(key, content):
    """The canonical payload of the command that sets a key."""
    return record(1, key) + record(3, record(1, content))


def set_state_json(key, content):
    """The JSON of that payload."""
    key, content = base64.b64encode(key), base64.b64encode(content)
    return b"".join([b'{"key":"', key, b'","value":{"content":"', content, b'"}}'])


@functools.cache
def large():
    """A value: characters and digits without an order."""
    return base64.b64encode(random.Random(1).randbytes(VALUE // 4 * 3))


def other(content):
    """The same value except its last byte."""
    return content[:-1] + b"!"


# How many commands are made at once.
BLOCK = 5_000


# How often a command's content has the nine bytes of its number.
TIMES = 27


def command_numbers(number):
    """The key of a command, and the nine bytes of which its content is TIMES."""
    return b"%09d" % number, b"%09d" % (number * 7_919 % 1_000_000_000)


def blocks(line_of, count):
    """The bytes that `line_of` makes of each number below `count`, some thousands at once."""
    for begin in range(0, count, BLOCK):
        yield b"".join(map(line_of, range(begin, min(begin + BLOCK, count))))


def around():
    """What is before the key of each command, and between key and content: the lengths of both are always the same."""
    key, content = b"k" * 9, b"c" * 9 * TIMES
    head, _, rest = frame(SET_STATE, set_state(key, content)).partition(key)
    return head, rest.removesuffix(content)


HEAD, BETWEEN = around()


def command(number):
    """The frame of a command."""
    key, content = command_numbers(number)
    return b"%b%b%b%b" % (HEAD, key, BETWEEN, content * TIMES)


FRAME = len(command(0))

# The line of a command's frame in a dump, without its offset, its key and its content in base64.
DUMP_LINE = b'{"offset":%%d,"type":"SetStateCommand","code":1027,"length":%d,"message":' % (FRAME - 8)
DUMP_LINE += b'{"key":"%b","value":{"content":"%b"}}}\n'


def dump_line(number):
    """The line of the command's frame in a dump."""
    # nine bytes are twelve characters, so that of each repetition of them is the same text
    key, content = map(binascii.b2a_base64, command_numbers(number))
    return DUMP_LINE % (FRAME * number, key[:-1], content[:-1] * TIMES)


def journal(count=COMMANDS):
    """A journal of so many commands."""
    return blocks(command, count)


def rest_line(offset):
    return b'{"offset":%d,"rest":0}\n' % offset


@contextlib.contextmanager
def small_reads(parts, size):
    """The reading end of a pipe into which another process writes bytes; no read of it returns more than `size`."""
    reader, writer = os.pipe2(os.O_DIRECT)
    fcntl.fcntl(writer, fcntl.F_SETPIPE_SZ, 1 << 20)
    child = os.fork()
    if child == 0:
        # another pipe's reader here would hide from its writer that the program has ended
        os.closerange(3, writer)
        os.closerange(writer + 1, 1024)
        try:
            for part in parts:
                for begin in range(0, len(part), size):
                    os.write(writer, part[begin : begin + size])
        finally:
            os._exit(0)
    os.close(writer)
    try:
        yield reader
    finally:
        os.waitpid(child, 0)


def shown(data):
    """The ends of bytes that may be many."""
    return repr(data if len(data) <= 200 else data[:100] + b" .. " + data[-100:])


class Sweep(unittest.TestCase):
    def assertSame(self, found, expected, what):
        """Like assertEqual, of values that are too long to be shown."""
        if found != expected:
            self.fail(f"{what}: {len(found)} bytes, {shown(found)}; and not {len(expected)}, {shown(expected)}")


class Programs(Sweep):
    def run_program(self, words, expected, source=None, status=0, error=b""):
        """Runs a program, whose output has to be the parts of `expected`."""
        handed = [int(word.rpartition("/")[2]) for word in words if word.startswith("/dev/fd/")]
        how = {"stdin": source if source is not None else subprocess.DEVNULL, "pass_fds": handed}
        with tempfile.TemporaryFile() as errors:
            with subprocess.Popen(words, stdout=subprocess.PIPE, stderr=errors, **how) as program:
                for reader in [*handed, *([source] if isinstance(source, int) else [])]:
                    os.close(reader)
                try:
                    for part in expected:
                        self.assertSame(program.stdout.read(len(part)), part, words)
                    self.assertSame(program.stdout.read(1000), b"", words)
                finally:
                    program.stdout.close()
            errors.seek(0)
            self.assertEqual((program.returncode, errors.read(1000)), (status, error), words)

    @contextlib.contextmanager
    def file(self, *parts):
        """The path of a file of these parts."""
        with tempfile.NamedTemporaryFile() as file:
            for part in parts:
                file.write(part)
            file.flush()
            yield file.name

    def listing(self, count):
        return blocks(lambda _: b"SetStateCommand %d\n" % (FRAME - 8), count)

    def test_a_byte_a_read(self):
        count = SINGLE_BYTES // FRAME
        with self.file(*journal(count)) as path:
            self.run_program([LIST, path, "1"], [*self.listing(count), b"rest 0\n"])

    def test_list_many_reads(self):
        with small_reads(journal(), SMALL_READ) as reader:
            self.run_program([LIST], [*self.listing(COMMANDS), b"rest 0\n"], reader)

    def test_list_many_items(self):
        with self.file(*journal()) as path:
            self.run_program([LIST, path, "65536"], [*self.listing(COMMANDS), b"rest 0\n"])

    def test_dump_many_reads(self):
        with small_reads(journal(), SMALL_READ) as reader:
            self.run_program([DUMP], self.dumped(), reader)

    def dumped(self):
        yield from blocks(dump_line, COMMANDS)
        yield rest_line(FRAME * COMMANDS)

    def test_make_many_reads(self):
        with small_reads(self.dumped(), SMALL_READ) as reader:
            self.run_program([MAKE], journal(), reader)

    def test_diff_many_reads(self):
        with small_reads(journal(), SMALL_READ) as recorded, small_reads(journal(), SMALL_READ) as replayed:
            words = [DIFF, f"/dev/fd/{recorded}", "-"]
            self.run_program(words, [b"same, %d commands\n" % COMMANDS], replayed)

    def test_diff_one_command_less(self):
        with small_reads(journal(), SMALL_READ) as recorded, small_reads(journal(COMMANDS - 1), SMALL_READ) as replayed:
            words = [DIFF, "-", f"/dev/fd/{replayed}"]
            self.run_program(words, [b"replayed ends at command %d\n" % (COMMANDS - 1)], recorded, 1)

    def test_list_a_large_payload(self):
        payload = set_state(b"key", large())
        with self.file(frame(SET_STATE, payload), command(0)) as path:
            lines = [b"SetStateCommand %d\n" % len(payload), *self.listing(1), b"rest 0\n"]
            for words in ([LIST, path], [LIST, path, "65536"]):
                self.run_program(words, lines)

    def line(self, payload, member):
        """The line of a dump whose first item sets a state, in parts."""
        return [b'{"offset":0,"type":"SetStateCommand","code":1027,"length":%d,' % len(payload), member, b"}\n"]

    def test_a_large_payload_as_json_and_back(self):
        payload = set_state(b"key", large())
        stream = frame(SET_STATE, payload)
        with self.file(stream) as path:
            lines = [*self.line(payload, b'"message":' + set_state_json(b"key", large())), rest_line(len(stream))]
            self.run_program([DUMP, path], lines)
        with self.file(*lines) as path:
            self.run_program([MAKE, path], [stream])

    def test_a_large_text_as_json_and_back(self):
        payload = set_state(b"key", large())
        stream = frame(SET_STATE, payload)
        with self.file(stream) as path:
            text = b'"message":{"key":{"text":"key"},"value":{"content":{"text":"%s"}}}' % large()
            lines = [*self.line(payload, text), rest_line(len(stream))]
            self.run_program([DUMP, "--text", path], lines)
        with self.file(*lines) as path:
            self.run_program([MAKE, path], [stream])

    def test_a_large_malformed_payload_and_back(self):
        payload = set_state(b"key", large()) + b"\x0a\x01"
        stream = frame(SET_STATE, payload)
        with self.file(stream) as path:
            member = b'"malformed":true,"bytes":"%s"' % base64.b64encode(payload)
            lines = [*self.line(payload, member), rest_line(len(stream))]
            self.run_program([DUMP, path], lines)
        with self.file(*lines) as path:
            self.run_program([MAKE, path], [stream])

    def test_many_bytes_in_no_item_and_back(self):
        rest = frame(SET_STATE, set_state(b"key", large()))[:-1]
        with self.file(rest) as path:
            lines = [b'{"offset":0,"rest":%d,"bytes":"%s"}\n' % (len(rest), base64.b64encode(rest))]
            error = b"journal_dump: offset 0: %d bytes after the last whole item\n" % len(rest)
            error += b"journal_dump: no message in it; is it a journal of version 8?\n"
            error += b"journal_dump: it is dumped all the same; with --strict the status is 2\n"
            self.run_program([DUMP, path], lines, error=error)
        with self.file(*lines) as path:
            self.run_program([MAKE, path], [rest])

    def test_diff_large_payloads(self):
        recorded = frame(SET_STATE, set_state(b"key", large()))
        replayed = frame(SET_STATE, set_state(b"key", other(large())))
        text = MISMATCH % (0, large().decode(), other(large()).decode())
        with self.file(recorded) as first, self.file(recorded) as same, self.file(replayed) as second:
            self.run_program([DIFF, first, same], [b"same, 1 command\n"])
            self.run_program([DIFF, "--ignore-payloads", first, second], [b"same, 1 command\n"])
            self.run_program([DIFF, first, second], [f"command 0: {text}\n".encode()], status=1)


class Calls(Sweep):
    @functools.cached_property
    def payload(self):
        return set_state(b"key", large())

    @functools.cached_property
    def loose(self):
        """The same fields in another order, with two keys, the last of which counts."""
        return record(1, b"x") + record(3, record(1, large())) + record(1, b"key")

    @functools.cached_property
    def other(self):
        """The payload with another value."""
        return set_state(b"key", other(large()))

    def tearDown(self):
        # unittest keeps its cases, and they would keep these
        for name in ("payload", "loose", "other"):
            vars(self).pop(name, None)

    def test_is_well_formed(self):
        self.assertTrue(pendratsoa.is_well_formed("SetStateCommandMessage", self.payload))
        self.assertTrue(pendratsoa.is_well_formed("SetStateCommandMessage", self.loose))
        self.assertFalse(pendratsoa.is_well_formed("SetStateCommandMessage", self.payload + b"\x0a\x01"))

    def test_canonical(self):
        for payload in (self.payload, self.loose):
            self.assertSame(pendratsoa.canonical("SetStateCommandMessage", payload), self.payload, "canonical")
        with self.assertRaises(pendratsoa.Malformed):
            pendratsoa.canonical("SetStateCommandMessage", self.payload + b"\x0a\x01")

    def test_frame(self):
        for payload in (self.payload, self.loose):
            self.assertSame(pendratsoa.frame(8, SET_STATE, payload), frame(SET_STATE, self.payload), "frame")

    def test_merge(self):
        merged = pendratsoa.merge("SetStateCommandMessage", set_state(b"x", b"1"), self.payload)
        self.assertSame(merged, self.payload, "merge")
        merged = pendratsoa.merge("SetStateCommandMessage", set_state(b"x", large()), record(1, b"key"))
        self.assertSame(merged, self.payload, "merge")

    def test_json_and_back(self):
        json = set_state_json(b"key", large()).decode()
        for payload in (self.payload, self.loose):
            self.assertSame(pendratsoa.to_json("SetStateCommandMessage", payload), json, "to_json")
        self.assertSame(pendratsoa.from_json("SetStateCommandMessage", json), self.payload, "payload")

    def test_many_numbers(self):
        packed = b"".join(map(varint, range(NUMBERS)))
        loose = record(1, packed[: len(packed) - len(varint(NUMBERS - 1))]) + b"\x08" + varint(NUMBERS - 1)
        json = '{"waitingCompletions":[%s]}' % ",".join(map(str, range(NUMBERS)))
        self.assertSame(pendratsoa.canonical("SuspensionMessageV6", loose), record(1, packed), "canonical")
        self.assertSame(pendratsoa.to_json("SuspensionMessageV6", loose), json, "to_json")
        self.assertSame(pendratsoa.from_json("SuspensionMessageV6", json), record(1, packed), "payload")

    def test_notification(self):
        payload = b"\x08\x01" + record(5, record(1, large()))
        found = pendratsoa.notification(RUN_COMPLETION, payload)
        self.assertSame(found.result, record(1, large()), "notification")
        self.assertEqual((found.id, found.result_kind), (1, pendratsoa.ResultKind.VALUE))

    def test_commands(self):
        self.assertTrue(pendratsoa.header_eq(SET_STATE, self.payload, self.loose))
        self.assertFalse(pendratsoa.header_eq(SET_STATE, self.payload, self.other))
        self.assertTrue(pendratsoa.header_eq(SET_STATE, self.payload, self.other, ignore_payloads=True))
        expected = f"\n   value: '{large().decode()}' != '{other(large()).decode()}'"
        found = pendratsoa.difference(SET_STATE, self.payload, self.other)
        self.assertSame(found, expected, "difference")

    def test_journals(self):
        kinds = pendratsoa.VerdictKind
        recorded = frame(SET_STATE, self.payload) + command(0)
        found = pendratsoa.compare_journals(8, recorded, frame(SET_STATE, self.loose) + command(0))
        self.assertEqual((found.kind, found.index, found.text), (kinds.SAME, 2, ""))
        found = pendratsoa.compare_journals(8, recorded, frame(SET_STATE, self.other) + command(0))
        self.assertEqual((found.kind, found.index), (kinds.HEADER_MISMATCH, 0))
        self.assertSame(found.text, MISMATCH % (0, large().decode(), other(large()).decode()), "text")

    def test_many_commands(self):
        stream = b"".join(journal())
        found = pendratsoa.compare_journals(8, stream, stream)
        self.assertEqual((found.kind, found.index), (pendratsoa.VerdictKind.SAME, COMMANDS))

    def test_items(self):
        stream = pendratsoa.Stream(version=8)
        stream.feed(frame(SET_STATE, self.payload) + command(0))
        first, second = stream
        self.assertSame(first.payload, self.payload, "payload")
        self.assertSame(second.payload, command(0)[8:], "payload")


if __name__ == "__main__":
    if sys.argv[1] == "-":
        import pendratsoa

        del Programs
        tell(sys.argv[2:])
    else:
        LIST, DIFF, DUMP, MAKE = sys.argv[1:5]
        del Calls
        tell(sys.argv[5:])
