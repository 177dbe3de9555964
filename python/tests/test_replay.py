"""Replays that are checked item by item: the lines of conformance/replays, which its README specifies."""

import io
import tracemalloc
import unittest

from pendratsoa import ChangedField, JournalError, Message, Mismatch, OutOfMemory, Replay, Stream, Unknown, VerdictKind
from pendratsoa import compare_journals, difference, header
from support import CUSTOM_ENTRY, INPUT, RECORDED, REPLAYED, TOP, replaced, returning

LINES = [
    line
    for file in sorted((TOP / "conformance/replays").glob("*.txt"))
    for line in file.read_text().splitlines()
    if line and not line.startswith("#")
]

# how the vectors name two kinds
NAMES = {VerdictKind.TYPE_MISMATCH: "other_type", VerdictKind.HEADER_MISMATCH: "other_command"}
MALFORMED = {VerdictKind.BAD_RECORDED: "malformed recorded", VerdictKind.BAD_REPLAYED: "malformed replayed"}


def items_of(version, data):
    """The whole items of a stream."""
    return list(Stream(version).read(io.BytesIO(data), strict=False))


def commands_of(version, data):
    """The commands of a stream that are compared."""
    items = (item for item in items_of(version, data) if isinstance(item, Message))
    return [item for item in items if item.is_command and not item.type.startswith("CustomEntry")]


def said_of(replay, items):
    """What is said of a replay, and how many items came before."""
    for count, item in enumerate(items):
        mismatch = replay.check(item)
        if mismatch is not None:
            return mismatch, count
    return replay.finish(), len(items)


def words_of(mismatch, items, same):
    """What is said of a replay, as the vectors have it."""
    if mismatch is None:
        return f"same {same}"
    if mismatch.kind is VerdictKind.REPLAYED_ENDED:
        return f"replayed_ended {mismatch.index}"
    if mismatch.kind in MALFORMED:
        return f"{MALFORMED[mismatch.kind]} {mismatch.index} {items}"
    recorded = "-" if mismatch.recorded_offset is None else mismatch.recorded_offset
    name = NAMES.get(mismatch.kind, mismatch.kind)
    return f"{name} {mismatch.index} {items} {recorded} {mismatch.replayed_offset}"


class TestVectors(unittest.TestCase):
    def test_the_vectors(self):
        self.assertGreater(len(LINES), 20)
        for line in LINES:
            question, expected = line.split(" = ")
            _, version, payloads, recorded, *chunks = question.split()
            with self.subTest(line):
                found = self.checked(int(version), bytes_of(recorded), b"".join(map(bytes_of, chunks)), payloads)
                self.assertEqual(found, expected)

    def test_each_beginning_of_a_replay(self):
        for ignored in ("compared", "ignored"):
            for end in range(len(REPLAYED) + 1):
                self.checked(8, RECORDED, REPLAYED[:end], ignored)
                self.checked(8, RECORDED[:end], REPLAYED, ignored)

    def checked(self, version, recorded, replayed, payloads):
        """What is said of a replay. It is the verdict of both as a whole."""
        ignored = payloads == "ignored"
        items = items_of(version, replayed)
        replay = Replay(version, recorded, ignored)
        mismatch, count = said_of(replay, items)
        verdict = compare_journals(version, recorded, replayed, ignored)
        kind = VerdictKind.SAME if mismatch is None else mismatch.kind
        self.assertEqual((kind, replay.index), (verdict.kind, verdict.index))
        if mismatch is not None:
            self.assertEqual((mismatch.index, mismatch.text), (verdict.index, verdict.text))
            self.assert_fields(mismatch, recorded, items)
            where = items[count].offset if count < len(items) else sum(len(item.bytes) for item in items)
            self.assertEqual(mismatch.replayed_offset, where)
        if kind is not VerdictKind.REPLAYED_ENDED and mismatch is not None:
            # it is said once
            self.assertEqual([*map(replay.check, items), replay.finish()], [None] * (len(items) + 1))
        self.assert_expected(version, recorded, ignored, items)
        return words_of(mismatch, count, verdict.index)

    def assert_fields(self, mismatch, recorded, items):
        """The fields of a mismatch are the lines of the difference of both commands."""
        lines = "".join(f"\n   {field.name}: {field.recorded} != {field.replayed}" for field in mismatch.fields)
        if mismatch.kind is not VerdictKind.HEADER_MISMATCH:
            self.assertEqual(lines, "")
            return
        one = next(item for item in items_of(items[0].version, recorded) if item.offset == mismatch.recorded_offset)
        other = next(item for item in items if item.offset == mismatch.replayed_offset)
        self.assertEqual(lines, difference(one.code, one.payload, other.payload))

    def assert_expected(self, version, recorded, ignored, items):
        """What is expected are the commands of the recording, in their order, as far as they are the same."""
        commands = commands_of(version, recorded)
        replay = Replay(version, recorded, ignored)
        index = 0
        for item in items:
            expected = replay.expected()
            self.assertEqual(expected, commands[index] if index < len(commands) else None)
            if expected is not None:
                self.assertEqual((expected.offset, expected.word), (commands[index].offset, commands[index].word))
            if replay.check(item) is not None:
                self.assertEqual(replay.expected(), expected)
                break
            index += item in commands_of(version, item.bytes)


def bytes_of(word):
    """The bytes of a word."""
    return b"" if word == "-" else bytes.fromhex(word)


class TestReplay(unittest.TestCase):
    def test_a_mismatch(self):
        replay = Replay(8, RECORDED)
        found = [replay.check(item) for item in items_of(8, REPLAYED)]
        verdict = compare_journals(8, RECORDED, REPLAYED)
        fields = (ChangedField("value", "'1'", "'2'"),)
        mismatch = Mismatch(VerdictKind.HEADER_MISMATCH, 1, 17, 17, verdict.text, fields)
        self.assertEqual([said for said in found if said is not None], [mismatch])
        self.assertIsNone(replay.finish())
        self.assertEqual(replay.index, 1)
        self.assertEqual((replay.expected().type, replay.expected().message.key), ("SetStateCommand", b"counter"))

    def test_finish_changes_nothing(self):
        replay = Replay(8, bytearray(RECORDED))
        for _ in range(2):
            left = replay.finish()
            self.assertEqual((left.kind, left.index, left.recorded_offset), ("replayed_ended", 0, 0))
        self.assertEqual(replay.index, 0)
        for item in items_of(8, RECORDED):
            self.assertIsNone(replay.check(item))
        self.assertIsNone(replay.finish())
        self.assertIsNone(replay.expected())

    def test_how_many_bytes_follow_the_last_whole_item_of_the_recording(self):
        ends = [item.offset + len(item.bytes) for item in items_of(8, RECORDED)]
        for end in range(len(RECORDED) + 1):
            rest = end - max([0, *(whole for whole in ends if whole <= end)])
            replay = Replay(8, RECORDED[:end])
            self.assertEqual(replay.recorded_rest, rest)
            for item in items_of(8, REPLAYED):
                replay.check(item)
                index, expected = replay.index, replay.expected()
                self.assertEqual(replay.recorded_rest, rest)
                self.assertEqual((replay.index, replay.expected()), (index, expected))
        with self.assertRaises(AttributeError):
            replay.recorded_rest = 0

    def test_the_recording_is_copied_if_it_can_change(self):
        recorded = bytearray(RECORDED)
        replay = Replay(8, recorded)
        recorded[:] = bytes(len(recorded))
        self.assertEqual([replay.check(item) for item in items_of(8, RECORDED)].count(None), len(items_of(8, RECORDED)))

    def test_arguments(self):
        for version in (0, 4, 10, -1, 1 << 32):
            with self.assertRaisesRegex(Unknown, r"^unknown protocol version "):
                Replay(version, b"")
        for call in (lambda: Replay("8", b""), lambda: Replay(8, "recorded"), lambda: Replay(8, b"").check(b"")):
            self.assertRaises(TypeError, call)
        with self.assertRaisesRegex(Unknown, "^unknown code 0x10000, "):
            Replay(8, b"").check(Message(8, 1 << 16, b""))
        replay = Replay(7, b"")
        self.assertEqual((replay.version, repr(replay)), (7, "<Replay of version 7, 0 commands the same>"))

    def test_custom_entries_pass(self):
        replay = Replay(8, RECORDED)
        self.assertIsNone(replay.check(Message(8, CUSTOM_ENTRY, b"\xff")))
        self.assertEqual(replay.expected().offset, 0)

    def test_memory_that_ends_loses_nothing(self):
        for function in ("journal_replay_check", "journal_replay_text", "journal_changed_field"):
            replay = Replay(8, RECORDED)
            first, second, *_ = items_of(8, REPLAYED)
            self.assertIsNone(replay.check(first))
            with replaced(function, lambda *_: -2):
                self.assertRaises(OutOfMemory, replay.check, second)
            self.assertEqual(replay.check(second).index, 1)
            self.assertIsNone(replay.check(second))

    def test_a_later_library(self):
        replay = Replay(8, b"")
        # two calls have two structs of six numbers each, and the last one is that of the mismatch
        with replaced("journal_replay_finish", returning(1, 7, 0, 0, 0, 0, 0)):
            with self.assertRaisesRegex(JournalError, "^the library returned the kind of verdict 7, "):
                replay.finish()
        with replaced("journal_replay_check", returning(-99)):
            with self.assertRaisesRegex(JournalError, "^the library returned the error -99, "):
                replay.check(items_of(8, INPUT)[0])

    def test_memory_does_not_grow(self):
        # an entry that is recorded and replayed many times, with a large payload
        payload = bytes([0x0A, 1, 97, 0x1A, 0x84, 0x20, 0x0A, 0x81, 0x20]) + bytes(0x1001)
        message = Message(8, 0x0403, payload)
        count = 500
        replay = Replay(8, (header(8, message.code, len(payload)) + payload) * count)
        replay.check(message)
        tracemalloc.start()
        for _ in range(count - 1):
            self.assertIsNone(replay.check(message))
        _, peak = tracemalloc.get_traced_memory()
        tracemalloc.stop()
        self.assertIsNone(replay.finish())
        self.assertLess(peak, 10_000)


if __name__ == "__main__":
    unittest.main()
