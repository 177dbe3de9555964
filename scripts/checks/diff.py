#!/usr/bin/env python3
"""journal_diff on example journals: verdicts, what it passes over, lines of JSON, colors, and what moved.

Standard output, the whole of standard error and the status are compared. failures.py has wrong arguments, and inputs
and outputs that fail; terminal.py has the program on a terminal.
"""
from __future__ import annotations

import json
import pathlib

import checks
from programs import STREAMS, Program, go_to_streams

RECORDED = (STREAMS / "recorded").read_bytes()
END = f"offset {len(RECORDED)}"
FIRST = RECORDED[:17]
UNKNOWN = b"\0\x08\0\0\0\0\0\0"


def after_first(code: int, payload: bytes) -> bytes:
    """The first command, and after it one of this code."""
    return FIRST + code.to_bytes(2, "big") + len(payload).to_bytes(6, "big") + payload


# The ids of the call are others, as behind a command that was inserted.
SHIFTED = RECORDED.replace(b"P\x01X\x02", b"P\x02X\x03")

# Journals in addition to those of examples/streams.
JOURNALS = {
    "first": FIRST,
    "other_type": after_first(0x401, b""),
    "malformed": after_first(0x403, b"\xff"),
    "unknown_first": UNKNOWN + RECORDED,
    "unknown_last": RECORDED + UNKNOWN + b"x",
    "rest": RECORDED + b"xyz",
    "shifted": SHIFTED,
    "inserted": after_first(0x402, b"\n\x01aX\x01") + SHIFTED[len(FIRST):],
    "bad_start": RECORDED + b"\0\0\0\0\0\0\0\x01\xff",
    # files that are not journals, and what of a journal is not a whole item
    "text": b"a text of 34 bytes, and no journal",
    "dump": (STREAMS / "replay.dump").read_bytes(),
    "brace": b"{",
    "cut_first": FIRST[:-1],
    # states that are set: a key of two lines, with quotes and ' != ', one of bytes that are not UTF-8, an empty value
    "key_of_lines": after_first(0x403, b'\n\x0ba\n "b": != '),
    "bytes": after_first(0x403, b"\n\x03\xff\x01\0"),
    "empty": after_first(0x403, b"\n\x03\xff\x01\0\x1a\0"),
    # states that are cleared, by their keys
    "unequal": after_first(0x404, b"\n\x06a != b"),
    "key": after_first(0x404, b"\n\x01c"),
}

FOUND = (
    "Found a mismatch between the code paths taken during the previous execution and the paths taken during this"
    " execution.\nThis typically happens when some parts of the code are non-deterministic.\n"
)
OTHER_HANDLER = (
    f"{FOUND}- The mismatch happened while executing 'call' (index '2')\n"
    "- Difference:\n   handler_name: greet != greet_all"
)
OTHER_IDS = (
    f"{FOUND}- The mismatch happened while executing 'call' (index '2')\n"
    "- Difference:\n   invocation_id_notification_idx: 1 != 2\n   result_completion_id: 2 != 3"
)


def other_payload(recorded: str, replayed: str) -> str:
    return (
        f"{FOUND}- The mismatch happened while executing 'set state' (index '1')\n"
        f"- Difference:\n   value: {recorded} != {replayed}"
    )


def other_type(recorded: str, replayed: str) -> str:
    return (
        f"{FOUND} - The previous execution ran and recorded the following: {recorded}\n"
        f" - The current execution attempts to perform the following: {replayed}"
    )


OTHER_PAYLOAD = other_payload("'1'", "'2'")
OTHER_TYPE = other_type("'set state' (index '1')", "'handler return'")
CALL = "CallCommand at offset 39: 27 bytes of payload, more than the limit of 26"
CUT_SHORT = "8 bytes after its last whole item"
EMPTY = "the {} journal is empty"
DUMP = "this is a dump; journal make turns it into a stream"


def no_journal(side: str, count: int, version: int = 8) -> tuple[str, str]:
    """What is said of a journal that has this number of bytes and no whole item."""
    bytes_ = "1 byte" if count == 1 else f"{count} bytes"
    return (f"the {side} journal, offset 0: {bytes_} after the last whole item",
            f"no message in the {side} journal; is it a journal of version {version}?")


OF_DUMP = (*no_journal("recorded", len(JOURNALS["dump"])), DUMP)

# Words, the status, the verdict, and what is said on the standard error of which journal.
CASES: tuple[tuple[str, int, str, *tuple[str, ...]], ...] = (
    ("recorded recorded", 0, "same, 4 commands"),
    ("- recorded", 0, "same, 4 commands"),
    ("recorded -", 0, "same, 4 commands"),
    ("--protocol 9 replay replay", 0, "same, 1 command"),
    ("recorded replayed_other_handler", 1, f"command 2: {OTHER_HANDLER}"),
    ("--ignore-payloads - replayed_other_handler", 1, f"command 2: {OTHER_HANDLER}"),
    ("recorded replayed_other_payload", 1, f"command 1: {OTHER_PAYLOAD}"),
    ("recorded --ignore-payloads replayed_other_payload", 0, "same, 4 commands"),
    ("recorded shifted", 1, f"command 2: {OTHER_IDS}"),
    ("--ignore-ids recorded shifted", 0, "same, 4 commands"),
    ("--ignore-ids recorded replayed_other_payload", 1, f"command 1: {OTHER_PAYLOAD}"),
    ("--ignore-ids --ignore-payloads recorded replayed_other_payload", 0, "same, 4 commands"),
    ("recorded /dev/null", 1, "replayed ends at command 0", EMPTY.format("replayed")),
    ("/dev/null first", 1, "recorded ends at command 0", EMPTY.format("recorded")),
    ("/dev/null /dev/null", 0, "same, 0 commands", EMPTY.format("recorded"), EMPTY.format("replayed")),
    # bytes and no whole item are not a journal, and have no verdict
    ("text text", 2, "", *no_journal("recorded", 34)),
    ("--json recorded text", 2, "", *no_journal("replayed", 34)),
    ("--all --protocol 9 recorded text", 2, "", *no_journal("replayed", 34, 9)),
    ("--color always text recorded", 2, "", *no_journal("recorded", 34)),
    ("--strict recorded cut_first", 2, "", *no_journal("replayed", 16)),
    ("cut_first /dev/null", 2, "", *no_journal("recorded", 16)),
    ("brace recorded", 2, "", *no_journal("recorded", 1)),
    ("dump dump", 2, "", *OF_DUMP),
    ("--all dump recorded", 2, "", *OF_DUMP),
    ("recorded dump", 2, "", *no_journal("replayed", len(JOURNALS["dump"])), DUMP),
    ("dump text", 2, "", *OF_DUMP),
    ("text dump", 2, "", *no_journal("recorded", 34)),
    ("recorded other_type", 1, f"command 1: {OTHER_TYPE}"),
    ("recorded first", 1, "replayed ends at command 1"),
    ("recorded malformed", 2, "", "the replayed command 1 is malformed"),
    ("malformed malformed", 2, "", "the recorded command 1 is malformed"),
    ("first malformed", 1, "recorded ends at command 1"),
    # skipped items are reported for each journal, and are an error where the comparison is strict
    ("cut_short cut_short", 0, "same, 0 commands",
     f"the recorded journal has {CUT_SHORT}", f"the replayed journal has {CUT_SHORT}"),
    ("three_unknown_types cut_short", 0, "same, 0 commands",
     "the recorded journal has 3 unknown headers", f"the replayed journal has {CUT_SHORT}"),
    ("unknown_type recorded", 1, "recorded ends at command 0", "the recorded journal has 1 unknown header"),
    ("recorded unknown_last", 0, "same, 4 commands", "the replayed journal has 1 unknown header",
     "the replayed journal has 1 byte after its last whole item"),
    ("recorded bad_start", 0, "same, 4 commands"),
    ("--strict recorded recorded", 0, "same, 4 commands"),
    ("--strict three_unknown_types cut_short", 2, "", "the recorded journal, offset 0: unknown header 0x8"),
    ("--strict recorded unknown_last", 2, "", f"the replayed journal, {END}: unknown header 0x8"),
    ("--strict replayed_other_handler rest", 2, "", f"the replayed journal, {END}: 3 bytes after the last whole item"),
    ("--strict recorded bad_start", 2, "", f"the replayed journal, {END}: malformed payload of Start"),
    # messages of 9, 14, 27 and 14 bytes of payload, or with another payload as many
    ("--max-message 27 recorded recorded", 0, "same, 4 commands"),
    *((f"{words} --max-message 26 recorded replayed_other_payload", 2, "", f"the recorded journal, {CALL}")
      for words in ("", "--json", "--all", "--color always")),
    ("--max-message 26 first recorded", 2, "", f"the replayed journal, {CALL}"),
    ("--max-message 8 /dev/null malformed", 2, "",
     "the replayed journal, InputCommand at offset 0: 9 bytes of payload, more than the limit of 8"),
    ("--max-message 7 --protocol 9 /dev/null unknown_type", 2, "", "the replayed journal, unknown protocol.message code"
     " 0x8 at offset 0: 8 bytes of payload, more than the limit of 7"),
    # in colors the recorded is red, the replayed green
    ("--color always recorded replayed_other_payload", 1,
     "\x1b[1mcommand 1\x1b[0m: " + other_payload("\x1b[31m'1'\x1b[0m", "\x1b[32m'2'\x1b[0m")),
    ("--color=always recorded other_type", 1, "\x1b[1mcommand 1\x1b[0m: "
     + other_type("\x1b[31m'set state' (index '1')\x1b[0m", "\x1b[32m'handler return'\x1b[0m")),
    ("recorded --color always recorded", 0, "\x1b[32msame, 4 commands\x1b[0m"),
    ("recorded /dev/null --color always", 1, "\x1b[1mreplayed ends at command 0\x1b[0m", EMPTY.format("replayed")),
    ("--color never recorded replayed_other_payload", 1, f"command 1: {OTHER_PAYLOAD}"),
    ("--color auto recorded replayed_other_payload", 1, f"command 1: {OTHER_PAYLOAD}"),
    ("--color always --json recorded recorded", 0, '{"verdict":"same","commands":4}'),
)

PLACES = {"index": 1, "recordedAt": 17, "replayedAt": 17}

# The verdict as a line of JSON: words, the status, the object, and what is said on the standard error.
JSON: tuple[tuple[str, int, dict[str, object], *tuple[str, ...]], ...] = (
    ("recorded recorded", 0, {"verdict": "same", "commands": 4}),
    ("recorded /dev/null", 1, {"verdict": "replayedEnded", "index": 0, "recordedAt": 0}, EMPTY.format("replayed")),
    ("first malformed", 1, {"verdict": "recordedEnded", "index": 1, "replayedAt": 17}),
    ("recorded replayed_other_payload", 1,
     {"verdict": "headerMismatch", **PLACES, "text": OTHER_PAYLOAD,
      "fields": [{"name": "value", "recorded": "'1'", "replayed": "'2'"}]}),
    ("recorded other_type", 1, {"verdict": "typeMismatch", **PLACES, "text": OTHER_TYPE}),
    ("/dev/null unknown_first", 1, {"verdict": "recordedEnded", "index": 0, "replayedAt": 8},
     EMPTY.format("recorded"), "the replayed journal has 1 unknown header"),
)

# The journals, and the name and the values of the field at the end of the line, as the example of docs/PROGRAMS.md has
# it.
FIELDS = (
    ("recorded replayed_other_handler", "handler_name", "greet", "greet_all"),
    ("key_of_lines bytes", "key", "'a\n \"b\": != '", "[255, 1, 0]"),
    ("bytes empty", "value", "<empty>", "''"),
)


# The test vectors of what moved, as lines of JSON.
ALIGNMENTS = checks.ROOT / "tests" / "vectors" / "alignments.txt"

# What moved, as a text: the words, the status, and the lines.
MOVED: tuple[tuple[str, int, str], ...] = (
    ("recorded recorded", 0, "same, 4 commands\n  4 the same, recorded 0, replayed 0\n"),
    ("first recorded", 1,
     "the replay has 3 commands more, 0 fewer and 0 changed; 1 is the same\n  1 the same, recorded 0, replayed 0\n"
     "+ inserted SetStateCommand, before recorded 1, replayed 1 at offset 17\n"
     "+ inserted CallCommand, before recorded 1, replayed 2 at offset 39\n"
     "+ inserted OutputCommand, before recorded 1, replayed 3 at offset 90\n"),
    ("recorded replayed_other_handler", 1,
     "the replay has one command changed, CallCommand greet, command 2; the one after it is the same\n"
     "  2 the same, recorded 0, replayed 0\n"
     "! changed CallCommand, recorded 2 at offset 39, replayed 2 at offset 39\n   handler_name: greet != greet_all\n"
     "  1 the same, recorded 3 at offset 90, replayed 3 at offset 78\n"),
    ("--ignore-payloads recorded replayed_other_payload", 0,
     "same, 4 commands\n  4 the same, recorded 0, replayed 0\n"),
    ("--color always recorded replayed_other_handler", 1,
     "\x1b[1mthe replay has one command changed, CallCommand greet, command 2; the one after it is the same\x1b[0m\n"
     "  2 the same, recorded 0, replayed 0\n"
     "! changed CallCommand, recorded 2 at offset 39, replayed 2 at offset 39\n"
     "   handler_name: \x1b[31mgreet\x1b[0m != \x1b[32mgreet_all\x1b[0m\n"
     "  1 the same, recorded 3 at offset 90, replayed 3 at offset 78\n"),
)

# Two values of a state, and how a line shows them if long values are short: whole, unless one of them has more than 80
# bytes with its quotes, and otherwise around their difference.
A20, Z20, XFF = "a" * 20, "z" * 20, r"\xff" * 4
SHORT: tuple[tuple[str | bytes, str | bytes, str], ...] = (
    ("a" * 78, "b", f": '{'a' * 78}' != 'b'"),
    ("a" * 79, "b", f": at byte 0 of 79 and 1: '[{'a' * 40}..]' != '[b]'"),
    ("a" * 100 + "one" + "z" * 100, "a" * 100 + "two" + "z" * 100,
     f": at byte 100 of 203: ..{A20}[one]{Z20}.. != ..{A20}[two]{Z20}.."),
    # one goes on where the other ends, and one has something more
    ("a" * 100, "a" * 101, f": at byte 100 of 100 and 101: ..{A20}[]' != ..{A20}[a]'"),
    ("a" * 90 + "z" * 19, "a" * 90 + "more" + "z" * 19,
     f": at byte 90 of 109 and 113: ..{A20}[]{'z' * 19}' != ..{A20}[more]{'z' * 19}'"),
    # what is common is taken once
    ("a" * 90, "a" * 91 + "ba", f": at byte 90 of 90 and 93: ..{A20}[]' != ..{A20}[aba]'"),
    # characters are whole: of two, of three and of four bytes
    ("é" * 50 + "é!", "é" * 50 + "è!", f": at byte 100 of 103: ..{'é' * 10}[é]!' != ..{'é' * 10}[è]!'"),
    ("a€" * 30 + "\u20a0", "a€" * 30 + "\u20e0",
     f": at byte 120 of 123: ..{'a€' * 5}[\u20a0]' != ..{'a€' * 5}[\u20e0]'"),
    ("x" + "😀" * 30, "y" + "😀" * 30, f": at byte 0 of 121: '[x]{'😀' * 5}.. != '[y]{'😀' * 5}.."),
    ("😀" * 30 + "x", "😁" * 30 + "x", f": at byte 0 of 121: '[{'😀' * 10}..]x' != '[{'😁' * 10}..]x'"),
    # bytes that are not UTF-8 are printed with escapes, and counted as they are printed
    (b"\xff" * 40 + b"\x01", b"\xff" * 40 + b"\x02",
     f": at byte 165 of 167: ..f{XFF}\\x0[1]\" != ..f{XFF}\\x0[2]\""),
)

# How many commands may move where the fewest of them are found.
LIMIT = 1000


def aligned(check: checks.Check, diff: Program) -> None:
    """What moved between journals, by test vectors and as a text, and where it is too much."""
    lines = [line for line in ALIGNMENTS.read_text().splitlines() if not line.startswith("#")]
    cases = [case.splitlines() for case in "\n".join(lines).split("\n\n") if case.strip()]
    check.case("test vectors of alignments", len(cases) == 21, f"{len(cases)} cases")
    for number, case in enumerate(cases, 1):
        given = {name: rest for name, _, rest in (line.partition(" ") for line in case if not line.startswith("{"))}
        for side in ("recorded", "replayed"):
            (check.work / side).write_bytes(bytes.fromhex(given[side]))
        words = ("--all", "--json", *given.get("options", "").split(), str(check.work / "recorded"),
                 str(check.work / "replayed"))
        out = [line for line in case if line.startswith("{")]
        status = 0 if '"inserted":0,"removed":0,"changed":0' in out[0] else 1
        said = "".join(f"journal_diff: {EMPTY.format(side)}\n" for side in ("recorded", "replayed") if not given[side])
        diff.ends(words, "".join(f"{line}\n" for line in out), said, status, what=f"of case {number}")
    for words, status, text in MOVED:
        diff.ends(f"--all {words}", text, "", status)
    diff.ends("--all recorded malformed", "", "journal_diff: the replayed command 1 is malformed\n", 2)
    diff.ends("--all --strict recorded bad_start", "",
              f"journal_diff: the replayed journal, {END}: malformed payload of Start\n", 2)
    for changed in (LIMIT, LIMIT + 1):
        for side in ("recorded", "replayed"):
            states = (state(f"{number}", side) for number in range(changed))
            (check.work / side).write_bytes(b"".join([*states, state("last", "same")]))
        run = diff.run(("--all", str(check.work / "recorded"), str(check.work / "replayed")))
        first, *entries = run.out.decode().splitlines()
        said = (
            f"the replay has 0 commands more, 0 fewer and {changed} changed; 1 is the same" if changed == LIMIT
            else f"more than {LIMIT} commands moved, so they are compared index by index; 1 is the same"
        )
        count = sum(line.startswith("! changed SetStateCommand") for line in entries)
        check.case(f"{changed} commands changed", (run.status, first, count) == (1, said, changed), run)


def shortened(check: checks.Check, diff: Program) -> None:
    """Long values around their difference, where that is wanted."""
    paths = [str(check.work / side) for side in ("recorded", "replayed")]
    for recorded, replayed, line in SHORT:
        for path, value in zip(paths, (recorded, replayed)):
            pathlib.Path(path).write_bytes(state("key", value))
        for words in (("--all",), ("--verdict",)):
            run = diff.run((*words, "--values", "short", *paths))
            check.case(f"{words} of {line}", f"\n   value{line}\n" in run.out.decode() and run.status == 1, run)
        # whole values otherwise, in all forms
        whole = [diff.run((*words, *paths)).out for words in ((), ("--all",), ("--json",), ("--all", "--json"))]
        check.case(f"whole values in place of {line}", all(whole), whole)
        for out, words in zip(whole, ((), ("--all",), ("--json",), ("--all", "--json"))):
            for how in ("auto", "whole", *(["short"] if "--json" in words else [])):
                diff.ends((*words, "--values", how, *paths), out.decode(), "", 1)
        diff.ends(("--verdict", *paths), whole[0].decode(), "", 1)
    # both values in their colors, and neither if one of them has ' != ' itself
    for path, value in zip(paths, ("a" * 90 + "x", "a" * 90 + "y")):
        pathlib.Path(path).write_bytes(state("key", value))
    run = diff.run(("--color=always", "--values=short", *paths))
    line = f"value: at byte 90 of 91: \x1b[31m..{A20}[x]'\x1b[0m != \x1b[32m..{A20}[y]'\x1b[0m\n"
    check.case("short values in colors", run.out.decode().endswith(line), run)


def sized(content: bytes) -> bytes:
    """A content of at most 16,383 bytes after its length, a varint."""
    low, high = len(content) & 0x7F, len(content) >> 7
    return (bytes([low | 0x80, high]) if high else bytes([low])) + content


def state(key: str, value: str | bytes) -> bytes:
    """A command that sets a state."""
    held = b"\n" + sized(value.encode() if isinstance(value, str) else value)
    payload = b"\n" + sized(key.encode()) + b"\x1a" + sized(held)
    return (0x403).to_bytes(2, "big") + len(payload).to_bytes(6, "big") + payload


def compact(value: object) -> str:
    return json.dumps(value, separators=(",", ":"))


def of_dumps(check: checks.Check, diff: Program) -> None:
    """Compares dumps as the streams that they are of."""
    dump = Program(check, "journal_dump", "recorded")
    others = ("recorded", "replayed_other_handler", "replayed_other_payload", "shifted")
    for name in others:
        pathlib.Path(f"{name}.jsonl").write_bytes(dump.run(name).out)
    for other in others:
        streams = diff.run(f"--all recorded {other}")
        dumps = diff.run(f"--all --input dump recorded.jsonl {other}.jsonl")
        is_said = streams.status in (0, 1) and bool(streams.out)
        is_same = is_said and (dumps.status, dumps.out, dumps.err) == (streams.status, streams.out, b"")
        check.case(f"dumps of recorded and {other}", is_same, dumps)
    pathlib.Path("bad.jsonl").write_bytes(pathlib.Path("recorded.jsonl").read_bytes() + b"{}\n")
    diff.ends("--input dump recorded.jsonl bad.jsonl", "",
              "journal_diff: bad.jsonl:7: neither a type nor a code\n", 2)
    diff.ends("--input dump recorded recorded.jsonl", "", "journal_diff: recorded:1: not JSON at byte 0\n", 2)


def main(check: checks.Check) -> None:
    diff = Program(check, "journal_diff", "recorded")
    go_to_streams(check, JOURNALS)
    as_json = [(f"--json {words}", status, compact(verdict), *said) for words, status, verdict, *said in JSON]
    for words, status, verdict, *said in (*CASES, *as_json):
        diff.ends(words, f"{verdict}\n" if verdict else "", "".join(f"journal_diff: {line}\n" for line in said), status)
    for journals, name, recorded, replayed in FIELDS:
        run = diff.run(f"--json {journals}")
        fields = compact({"fields": [{"name": name, "recorded": recorded, "replayed": replayed}]})
        is_right = run.status == 1 and run.out.decode().endswith(f",{fields[1:]}\n") and not run.err
        check.case(f"the fields of {journals}", is_right, run)
    # of 4 GiB that are announced no byte is waited for
    diff.ends("--max-message 1048576 - recorded", "", "journal_diff: the recorded journal, InputCommand at offset 0:"
              " 4294967295 bytes of payload, more than the limit of 1048576\n", 2, given=b"\x04\0\0\0\xff\xff\xff\xff")
    aligned(check, diff)
    shortened(check, diff)
    of_dumps(check, diff)
    # a value that has ' != ' itself
    run = diff.run("--color always unequal key")
    is_plain = run.status == 1 and run.out.endswith(b"\n   key: 'a != b' != 'c'\n")
    check.case("no colors in a line of two values that cannot be told apart", is_plain, run)


if __name__ == "__main__":
    checks.perform(main)
