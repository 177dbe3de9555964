"""Names and numbers of types, schemas and versions."""

import unittest

import pendratsoa
from pendratsoa import Message, Stream
from support import CALL_COMMAND, CALL_COMPLETION, CUSTOM_ENTRY, types


class TestNames(unittest.TestCase):
    def test_types_have_their_codes(self):
        for code, name in types():
            self.assertEqual(pendratsoa.type_name(code), name)
            self.assertEqual(pendratsoa.type_code(name), code)

    def test_a_suspension_has_another_schema_before_version_7(self):
        self.assertEqual([pendratsoa.schema(version, 1) for version in range(5, 10)], [12, 12, 11, 11, 11])

    def test_a_schema_has_the_name_of_its_record(self):
        for code, name in types():
            self.assertEqual(pendratsoa.SCHEMA_NAMES[pendratsoa.schema(9, code)], f"{name}Message")

    def test_commands_and_notifications_are_those_of_the_library(self):
        for code in range(1 << 16):
            message = Message(8, code, b"")
            try:
                pendratsoa.notification(code, b"")
            except pendratsoa.Unknown:
                self.assertFalse(message.is_notification, code)
            except pendratsoa.NoId:
                self.assertTrue(message.is_notification, code)
        for code, name in types():
            message = Message(8, code, b"")
            try:
                self.assertTrue(pendratsoa.header_eq(code, b"", b""))
                self.assertTrue(message.is_command, name)
            except pendratsoa.Unknown:
                self.assertFalse(message.is_command, name)

    def test_custom_entries_count_by_their_code(self):
        kinds = [(Message(8, code, b"").is_command, Message(8, code, b"").is_notification) for code in (0x0500, 0x8500)]
        self.assertEqual(kinds, [(True, False), (False, True)])
        entry = Message(8, CUSTOM_ENTRY, b"")
        self.assertFalse(entry.is_command or entry.is_notification)

    def test_no_number_wraps(self):
        # each is the number of something once 2^16 or 2^32 is added or taken away
        for code, version, schema in (
            (CALL_COMMAND - (1 << 16), 8 - (1 << 32), 13 - (1 << 32)),
            (CALL_COMMAND + (1 << 16), 8 + (1 << 32), 13 + (1 << 32)),
            (CALL_COMMAND + (1 << 64), 8 + (1 << 64), 13 + (1 << 64)),
        ):
            completion = code - CALL_COMMAND + CALL_COMPLETION
            for call, argument, value in (
                (lambda: pendratsoa.type_name(code), "code", code),
                (lambda: pendratsoa.schema(8, code), "code", code),
                (lambda: pendratsoa.schema(version, CALL_COMMAND), "version", version),
                (lambda: pendratsoa.header(8, code, 0), "code", code),
                (lambda: pendratsoa.header(version, CALL_COMMAND, 0), "version", version),
                (lambda: pendratsoa.frame(8, code, b""), "code", code),
                (lambda: pendratsoa.frame(version, CALL_COMMAND, b""), "version", version),
                (lambda: pendratsoa.notification(completion, bytes.fromhex("08012200")), "code", completion),
                (lambda: pendratsoa.header_eq(code, b"", b""), "code", code),
                (lambda: pendratsoa.difference(code, b"", b""), "code", code),
                (lambda: pendratsoa.is_well_formed(schema, b""), "schema", schema),
                (lambda: pendratsoa.canonical(schema, b""), "schema", schema),
                (lambda: pendratsoa.merge(schema, b"", b""), "schema", schema),
                (lambda: pendratsoa.to_json(schema, b""), "schema", schema),
                (lambda: pendratsoa.from_json(schema, "{}"), "schema", schema),
                (lambda: pendratsoa.compare_journals(version, b"", b""), "version", version),
                (lambda: Stream(version), "version", version),
                (lambda: Message.of(code), "type", code),
                (lambda: Message.of(CALL_COMMAND, b"", version), "version", version),
                (lambda: Message.from_json(code, "{}"), "type", code),
                (lambda: Message.from_json(CALL_COMMAND, "{}", version), "version", version),
            ):
                with self.assertRaises(pendratsoa.Unknown) as unknown:
                    call()
                self.assertEqual((unknown.exception.argument, unknown.exception.value), (argument, value))

    def test_lengths_of_a_header(self):
        self.assertEqual(pendratsoa.header(8, CALL_COMMAND, (1 << 32) - 1), bytes.fromhex("040d0000ffffffff"))
        self.assertRaises(pendratsoa.TooLong, pendratsoa.header, 8, CALL_COMMAND, 1 << 32)
        with self.assertRaises(ValueError) as negative:
            pendratsoa.header(8, CALL_COMMAND, -1)
        self.assertNotIsInstance(negative.exception, pendratsoa.JournalError)
        self.assertEqual(str(negative.exception), "header: payload_length -1 is negative")


if __name__ == "__main__":
    unittest.main()
