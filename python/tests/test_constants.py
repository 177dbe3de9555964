"""The constants of the package are those of the header, and its library is that of the header's version."""

import ctypes
import json
import pickle
import re
import unittest

import pendratsoa
from pendratsoa import FieldReason, IdKind, JsonReason, NumberingReason, ResultKind, VerdictKind, _errors, _library
from support import HEADER, TOP, defined, types


class TestConstants(unittest.TestCase):
    def test_errors(self):
        numbers = defined(r"-\d+")
        # no call returns the kind of what is unknown by itself
        unknown = numbers.pop("UNKNOWN")
        kinds = {number: name.replace("_", "").lower() for name, number in numbers.items() if number > -16}
        kinds[unknown] = "unknown"
        self.assertEqual(sorted(numbers.values()), sorted(_errors.ERRORS))
        for number, (error, _) in _errors.ERRORS.items():
            self.assertEqual(kinds[-(-number % 16)], error.__name__.lower())

    def test_kinds(self):
        numbers = defined(r"\d+")
        for kinds, family in (
            (JsonReason, "JSON_"),
            (IdKind, ""),
            (ResultKind, "RESULT_"),
            (VerdictKind, "VERDICT_"),
            (NumberingReason, "LIST_"),
        ):
            for kind in kinds:
                self.assertEqual(numbers[family + kind.name], kind.number)
                self.assertIs(kinds.of(kind.number), kind)

    def test_versions_and_schemas(self):
        numbers = defined(r"\d+")
        self.assertEqual(numbers["FIRST_VERSION"], pendratsoa.FIRST_VERSION)
        self.assertEqual(numbers["LAST_VERSION"], pendratsoa.LAST_VERSION)
        self.assertEqual(numbers["SCHEMAS"], pendratsoa.SCHEMAS)
        self.assertEqual(numbers["SCHEMAS"], len(pendratsoa.SCHEMA_NAMES))
        self.assertRaises(pendratsoa.Unknown, pendratsoa.is_well_formed, pendratsoa.SCHEMAS, b"")

    def test_types(self):
        listed = {name: code for code, name in types()}
        self.assertEqual(len(listed), len(pendratsoa.TypeCode))
        for code in pendratsoa.TypeCode:
            self.assertEqual(listed[pendratsoa.type_name(code)], code)
            self.assertEqual(defined("0x[0-9A-F]+", 16)["TYPE_" + code.name], code)

    def test_calls(self):
        self.assertEqual(re.findall(r"^int64_t (journal_\w+)\(", HEADER, re.M), list(_library.PARAMETERS))
        for name in _library.PARAMETERS:
            self.assertIs(getattr(_library.library, name).restype, ctypes.c_int64)

    def test_version_of_the_library(self):
        self.assertIn(f'#define JOURNAL_LIBRARY_VERSION "{pendratsoa.library_version()}"\n', HEADER)
        self.assertIn(f'\nversion = "{pendratsoa.library_version()}"\n', (TOP / "python/pyproject.toml").read_text())

    def test_names_of_schemas_are_those_of_the_description(self):
        described = re.findall(
            r"^message (\w+) \{\n  option \(schema\) = (\d+);", (TOP / "proto/journal.proto").read_text(), re.M
        )
        listed = sorted((int(number), name) for name, number in described)
        self.assertEqual(listed, list(enumerate(pendratsoa.SCHEMA_NAMES)))

    def test_kinds_are_words(self):
        self.assertEqual([str(kind) for kind in IdKind], ["completion_id", "signal_id", "signal_name"])
        self.assertEqual(f"{VerdictKind.SAME} %s" % VerdictKind.BAD_REPLAYED, "same bad_replayed")
        for kind in (*JsonReason, *FieldReason, *NumberingReason, *IdKind, *ResultKind, *VerdictKind):
            word = kind.name.lower()
            self.assertEqual((kind, {kind: 1}[word], {word: 1}[kind], type(kind)(word)), (word, 1, 1, kind))
            self.assertEqual((f"{kind}", str(kind), json.dumps(kind)), (word, word, f'"{word}"'))
            self.assertIs(pickle.loads(pickle.dumps(kind)), kind)
        self.assertFalse(VerdictKind.SAME == "recorded_ended" or VerdictKind.SAME == 0)
        self.assertRaises(ValueError, VerdictKind, "other")


if __name__ == "__main__":
    unittest.main()
