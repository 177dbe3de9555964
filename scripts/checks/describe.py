#!/usr/bin/env python3
"""journal describe on examples: the lines about streams that show.py has, several streams one after the other, and the
versions that a stream fits, also those by which other subcommands read it.

Standard output, the whole of standard error and the status are compared.
"""
from __future__ import annotations

import checks
import show
from programs import STREAMS, Program, go_to_streams

CALL = '#2 CallCommand Greeter greet "hello"'
RECORDED = (
    "state: returned\n"
    "items: 5 of 106 bytes\n"
    "commands: 4 of 90 bytes\n"
    "notifications: 1 of 16 bytes\n"
    f"large: 27 bytes, {CALL}\n"
    'large: 14 bytes, #1 SetStateCommand "counter" "1"\n'
    'large: 9 bytes, #0 InputCommand "input"\n'
    f"open id 1: the invocation id of {CALL}\n"
)
FAILED = (
    "state: open\n"
    "items: 6 of 107 bytes\n"
    "commands: 3 of 46 bytes\n"
    "notifications: 3 of 61 bytes\n"
    "last failure: #4 RunCompletionNotification failed code=70 card declined completes #0 RunCommand charge\n"
    "large: 21 bytes, #4 RunCompletionNotification failed code=70 card declined\n"
    "large: 10 bytes, #0 RunCommand charge\n"
    "large: 8 bytes, #2 RunCommand ship\n"
    "open id 2: #1 SleepCommand wakeUpTime=9\n"
)
ODD = (
    "state: open\n"
    "items: 4 of 66 bytes\n"
    "commands: 2 of 33 bytes\n"
    "notifications: 0 of 0 bytes\n"
    "last failure: #2 Error code=100 boom at x\n"
    "large: 16 bytes, #1 RunCommand last\n"
    "large: 14 bytes, #2 Error code=100 boom at x\n"
    'large: 3 bytes, #3 CustomEntry(64512) "abc"\n'
    "open id 5: #1 RunCommand last\n"
)
NOTHING = "items: 0 of 0 bytes\ncommands: 0 of 0 bytes\nnotifications: 0 of 0 bytes\n"

# A start message, a sleep, and a suspension that waits for it, for one of two signals, and in a nested future.
FUTURE = show.field(1, b"\x01\x02") + show.field(2, b"\x11") + show.field(3, b"go")
START = show.field(1, b"key") + show.field(2, b"key") + show.field(3, 2)
SUSPENDED = (
    show.frame(0x0000, START)
    + show.frame(show.SLEEP, show.field(1, 9), show.field(11, 2))
    + show.frame(0x0001, show.field(4, FUTURE + show.field(4, show.field(1, b"\x05"))))
)
WAITS = (
    'invocation: id="key" debugId=key knownEntries=2\n'
    "state: suspended waitingCompletions=1 waitingCompletions=2 waitingSignals=17 waitingNamedSignals=go"
    " waitingCompletions=5\n"
    "items: 3 of 58 bytes\n"
    "commands: 1 of 12 bytes\n"
    "notifications: 0 of 0 bytes\n"
    "large: 18 bytes, #2 Suspension\n"
    'large: 12 bytes, #0 Start "key" key knownEntries=2\n'
    "large: 4 bytes, #1 SleepCommand wakeUpTime=9\n"
    "open id 2: #1 SleepCommand wakeUpTime=9\n"
)

# An attempt that ended with an error.
ERROR = show.frame(0x0000, START) + show.frame(0x0002, show.field(1, 100), show.field(2, b"boom"))
ENDED = (
    'invocation: id="key" debugId=key knownEntries=2\n'
    "state: failed code=100 message=boom\n"
    "items: 2 of 36 bytes\n"
    "commands: 0 of 0 bytes\n"
    "notifications: 0 of 0 bytes\n"
    "last failure: #1 Error code=100 boom\n"
    'large: 12 bytes, #0 Start "key" key knownEntries=2\n'
    "large: 8 bytes, #1 Error code=100 boom\n"
)

# Suspensions with a field that is malformed only before V7, and only from then on.
LATER, EARLIER = (show.frame(0x0001, show.field(number, b"\x80")) for number in (1, 4))

# A message of an unknown type, as V9 has it, and as the versions before it read it.
SKIPPED = "state: open\nitems: 1 of 16 bytes\ncommands: 0 of 0 bytes\nnotifications: 0 of 0 bytes\n" \
    "large: 8 bytes, #0 skipped 0x8 8\n"
CUT = "cut_short: offset 21: 8 bytes after the last whole item"

# Words with --protocol auto, the output, the version, and the status.
AUTO = (
    ("list unknown_type", "skipped 0x8 8\nrest 0\n", 9, 0),
    ("list earlier", "Suspension 3\nrest 0\n", 6, 0),
    ("show -- later", "#0 Suspension\n", 9, 0),
    ("get recorded 0 value.content", "input", 9, 0),
    ("cut --to 0 recorded", (STREAMS / "recorded").read_bytes()[:17], 9, 0),
    ("cat recorded unknown_type", (STREAMS / "recorded").read_bytes() + (STREAMS / "unknown_type").read_bytes(), 9, 0),
    ("diff recorded recorded", "same, 4 commands\n", 9, 0),
    ("dump --type End unknown_type", "", 9, 0),
)

# Words for which no version is taken, why, and the status.
NONE = (
    ("list -", "-: no file, and it is read twice", 2),
    ("list cut_short", f"no version fits: 9: {CUT}; 7 and 8: {CUT}; 5 and 6: {CUT}", 2),
    ("describe both", "no version fits: 9: both: offset 11: malformed payload of Suspension; "
     "7 and 8: both: offset 11: malformed payload of Suspension; "
     "5 and 6: both: offset 0: malformed payload of Suspension", 2),
    ("diff recorded nothing", "nothing: No such file or directory (os error 2)", 2),
    ("list --max-message 8 recorded",
     "recorded: InputCommand at offset 0: 9 bytes of payload, more than the limit of 8", 1),
)


def of_versions(check: checks.Check, journal: Program) -> None:
    """Which versions streams fit, and by which one they are read."""
    said = "journal describe: read as version "
    for name, numbers, newest in (
        ("recorded", "5, 6, 7, 8, 9", 9), ("later", "7, 8, 9", 9), ("earlier", "5, 6", 6), ("unknown_type", "9", 9),
    ):
        found = journal.run(f"describe --protocol auto {name}")
        check.case(f"the versions of {name}", found.status == 0 and found.err.decode() == f"{said}{newest}\n"
                   and found.out.decode().startswith(f"fits: {numbers}\nstate: "), found)
    journal.ends("describe --protocol auto unknown_type", f"fits: 9\n{SKIPPED}", f"{said}9\n")
    for words, out, version, status in AUTO:
        name, others = words.split(maxsplit=1)
        journal.ends(f"{name} --protocol auto {others}", out, f"journal {name}: read as version {version}\n", status)
    for words, why, status in NONE:
        name, others = words.split(maxsplit=1)
        journal.ends(f"{name} --protocol auto {others}", "", f"journal {name}: {why}\n", status)


def main(check: checks.Check) -> None:
    journal = Program(check, "journal", "recorded")
    streams = {name: stream for name, (stream, _, _) in show.MADE.items()}
    go_to_streams(check, {**streams, "suspended": SUSPENDED, "error": ERROR, "later": LATER, "earlier": EARLIER,
                          "both": LATER + EARLIER})

    def ends(words: str, out: str, err: str = "", status: int = 0) -> None:
        journal.ends(f"describe {words}", out, f"journal describe: {err}\n" if err else "", status)

    ends("", RECORDED)
    ends("--protocol 5 recorded", RECORDED)
    ends("failed", FAILED)
    ends("odd", ODD)
    ends("empty", NOTHING)
    ends("suspended", WAITS)
    ends("error", ENDED)
    ends("failed recorded", f"==> failed <==\n{FAILED}\n==> recorded <==\n{RECORDED}")
    ends("nothing recorded", f"==> nothing <==\n\n==> recorded <==\n{RECORDED}",
         "nothing: No such file or directory (os error 2)", 2)
    long = "InputCommand at offset 0: 9 bytes of payload, more than the limit of 8"
    ends("--max-message 8 recorded", "", long, 1)
    of_versions(check, journal)


if __name__ == "__main__":
    checks.perform(main)
