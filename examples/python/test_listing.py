"""Tests of the example that lists a stream: PYTHONPATH=../../python python3 -m unittest, in this folder."""

import contextlib
import io
import unittest
from unittest import mock

import listing
import pendratsoa

# an input with the value "input", eight bytes of code 8, and a message of 20 bytes that is not all there
STREAM = bytes.fromhex("040000000000000972070a05696e707574" "0008000000000000" "0400000000000014")


class TestListing(unittest.TestCase):
    def test_what_fails_is_returned(self) -> None:
        written = io.StringIO()
        with mock.patch.object(listing, "chunks", return_value=[STREAM]), contextlib.redirect_stdout(written):
            self.assertIsNone(listing.main([]))
        self.assertEqual(written.getvalue(), "InputCommand 9\nunknown 0x8\nrest 8\n")
        for error, result in (
            (pendratsoa.OutOfMemory(), "listing.py: out of memory"),
            (MemoryError(), "listing.py: out of memory"),
            (listing.InputFailed(), "listing.py: input failed"),
        ):
            with mock.patch.object(listing, "chunks", side_effect=error):
                self.assertEqual(listing.main([]), result)


if __name__ == "__main__":
    unittest.main()
