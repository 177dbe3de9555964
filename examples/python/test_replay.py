"""Tests of the example that checks a replay: PYTHONPATH=../../python python3 -m unittest, in this folder."""

import pathlib
import subprocess
import sys
import tempfile
import unittest
from typing import Tuple

FOLDER = pathlib.Path(__file__).resolve().parent
RECORDED = (FOLDER.parent / "streams/recorded").read_bytes()

# where its second command ends, and where a recording is cut within the third one
WHOLE = 39
CUT = 45

SAME = "same InputCommand at offset 0\nsame SetStateCommand at offset 17\n"


def replayed(recorded: bytes, replay: bytes) -> Tuple[int, str, str]:
    """The status of the example, what it prints, and why an input cannot be read."""
    with tempfile.TemporaryDirectory() as folder:
        recording = pathlib.Path(folder, "recording")
        recording.write_bytes(recorded)
        words = [sys.executable, str(FOLDER / "replay.py"), str(recording)]
        ended = subprocess.run(words, input=replay, capture_output=True, check=False)
    return ended.returncode, ended.stdout.decode(), ended.stderr.decode()


class TestReplay(unittest.TestCase):
    def test_a_recording_that_ends_within_an_item(self) -> None:
        self.assertEqual(replayed(RECORDED[:WHOLE], RECORDED[:WHOLE]), (0, SAME + "same, 2 commands\n", ""))
        why = "replay.py: the recording ends within an item, after 6 bytes of it\n"
        self.assertEqual(replayed(RECORDED[:CUT], RECORDED[:WHOLE]), (2, SAME, why))

    def test_a_replay_that_differs_from_what_is_whole(self) -> None:
        status, printed, why = replayed(RECORDED[:CUT], RECORDED[:17])
        self.assertEqual((status, why), (1, ""))
        self.assertIn("\nreplayed_ended, command 1, ", printed)


if __name__ == "__main__":
    unittest.main()
