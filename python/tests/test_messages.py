"""Messages: made, read and written."""

import copy
import dataclasses
import pickle
import types as types_module
import unittest

import pendratsoa
from pendratsoa import Message, Skipped, UnknownCode
from support import CALL_COMMAND, CUSTOM_ENTRY, INPUT, PROPOSE_RUN_COMPLETION, SUSPENSION, types

PROPOSAL = bytes.fromhex("0801720178")


class TestMaking(unittest.TestCase):
    def test_by_name_and_by_code(self):
        for code, name in types():
            message = Message.of(name)
            self.assertEqual(message, Message.of(code))
            self.assertEqual((message.version, message.code, message.payload), (8, code, b""))
            self.assertEqual(message.type, name)

    def test_payload_and_version(self):
        self.assertEqual(Message.of("InputCommand", INPUT[8:]).frame(), INPUT)
        self.assertEqual(Message.of("InputCommand", bytearray(INPUT[8:]), 9), Message(9, 0x0400, INPUT[8:], False))
        self.assertIs(type(Message.of("InputCommand", bytearray(INPUT[8:])).payload), bytes)
        self.assertEqual(Message.of(CUSTOM_ENTRY, b"\xff").type, "CustomEntry(64513)")

    def test_the_flag_is_that_of_its_header(self):
        flags = [Message.of("ProposeRunCompletion", PROPOSAL, version).requested_ack for version in range(5, 10)]
        self.assertEqual(flags, [False, False, True, True, True])

    def test_what_does_not_exist(self):
        for arguments in (("Sleep",), (8,), ("SleepCommand", b"", 4), ("CustomEntry(64513)",), (1 << 16,)):
            self.assertRaises(pendratsoa.Unknown, Message.of, *arguments)
        for arguments in ((None,), (1.5,), ("SleepCommand", "text"), ("SleepCommand", 5), ("SleepCommand", b"", "8")):
            self.assertRaises(TypeError, Message.of, *arguments)


class TestFromJson(unittest.TestCase):
    TEXT = '{"resultCompletionId":1,"value":"eA=="}'

    def test_texts_and_values(self):
        for version, flag in ((6, False), (7, True), (9, True)):
            made = Message(version, PROPOSE_RUN_COMPLETION, PROPOSAL, flag)
            for json in (self.TEXT, self.TEXT.encode(), made.json(), types_module.MappingProxyType(made.json())):
                self.assertEqual(Message.from_json("ProposeRunCompletion", json, version), made)
                self.assertEqual(Message.from_json(PROPOSE_RUN_COMPLETION, json, version=version), made)

    def test_by_the_schema_of_its_version(self):
        value = {"waitingCompletions": [1]}
        self.assertEqual(Message.from_json(SUSPENSION, value, 6).payload, bytes.fromhex("0a0101"))
        self.assertRaises(pendratsoa.JsonError, Message.from_json, SUSPENSION, value)

    def test_what_does_not_exist(self):
        for arguments in (("Sleep", "{}"), (8, "{}"), (SUSPENSION, "{}", 4), (CUSTOM_ENTRY, "{}"), (1 << 16, "{}")):
            self.assertRaises(pendratsoa.Unknown, Message.from_json, *arguments)

    def test_what_is_no_json(self):
        for json in (None, 5, [], object(), {"a": object()}, {(1, 2): 3}):
            self.assertRaises(TypeError, Message.from_json, "SleepCommand", json)
        circular = {}
        circular["value"] = circular
        for json in (circular, {"wakeUpTime": float("nan")}):
            self.assertRaises(ValueError, Message.from_json, "SleepCommand", json)
        with self.assertRaises(pendratsoa.JsonError) as raised:
            Message.from_json("SleepCommand", {"name": "\ud800"})
        self.assertEqual(raised.exception.reason, pendratsoa.JsonReason.NOT_JSON)


class TestMessage(unittest.TestCase):
    def test_its_frame_at_its_own_version_and_another(self):
        for own, other, flag in ((6, 7, "00"), (7, 6, "80"), (9, 5, "80")):
            message = Message(own, PROPOSE_RUN_COMPLETION, PROPOSAL)
            self.assertEqual(message.frame(), bytes.fromhex(f"0005{flag}00{len(PROPOSAL):08x}") + PROPOSAL)
            flag = "80" if flag == "00" else "00"
            self.assertEqual(message.frame(other), bytes.fromhex(f"0005{flag}00{len(PROPOSAL):08x}") + PROPOSAL)

    def test_its_frame_has_the_header_of_its_type(self):
        for requested_ack in (False, True):
            message = Message(8, PROPOSE_RUN_COMPLETION, PROPOSAL, requested_ack)
            self.assertEqual(message.frame()[:8], pendratsoa.header(8, PROPOSE_RUN_COMPLETION, len(PROPOSAL)))

    def test_its_frame_is_canonical(self):
        message = Message.of(SUSPENSION, bytes.fromhex("08010a0202030804"), 6)
        self.assertEqual(message.canonical(), bytes.fromhex("0a0401020304"))

    def test_its_schema_is_that_of_its_version(self):
        self.assertEqual([Message(version, SUSPENSION, b"").schema for version in (6, 7)], [12, 11])

    def test_a_custom_entry_has_no_schema(self):
        entry = Message(8, CUSTOM_ENTRY, b"\xff")
        for ask in (entry.json, entry.canonical, entry.frame, lambda: entry.schema):
            self.assertRaises(pendratsoa.Unknown, ask)

    def test_json(self):
        self.assertEqual(Message.of("InputCommand", INPUT[8:]).json(), {"value": {"content": "aW5wdXQ="}})


class TestValues(unittest.TestCase):
    ITEMS = (
        Message(8, CALL_COMMAND, b"\x12", False),
        Message(8, PROPOSE_RUN_COMPLETION, PROPOSAL, True),
        UnknownCode(8, 8, 0x0008_0000_0000_0001),
        Skipped(9, 8, 0x0008_0000_0000_0002, b"\x01\x02"),
    )

    def test_as_texts(self):
        lines = ["CallCommand 1", "ProposeRunCompletion 5 ack", "unknown 0x8", "skipped 0x8 2"]
        self.assertEqual([str(item) for item in self.ITEMS], lines)

    def test_as_python(self):
        for item in self.ITEMS:
            self.assertEqual(eval(repr(item), vars(pendratsoa)), item)

    def test_a_long_payload_is_cut_short(self):
        text = repr(Message(8, CALL_COMMAND, b"x" * 1000))
        self.assertIn("payload=b'xxxxxxxxxxxxxxxx'.. (1000 bytes)", text)
        self.assertLess(len(text), 120)

    def test_a_code_that_no_type_has(self):
        self.assertEqual(str(Message(8, 8, b"12")), "code 0x0008 2")

    def test_they_are_values(self):
        for item in self.ITEMS:
            for other in (copy.copy(item), copy.deepcopy(item), pickle.loads(pickle.dumps(item))):
                self.assertEqual((item, hash(item)), (other, hash(other)))
            with self.assertRaises(dataclasses.FrozenInstanceError):
                item.code = 0
        self.assertEqual(len(set(self.ITEMS)), 4)


if __name__ == "__main__":
    unittest.main()
