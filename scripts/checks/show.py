#!/usr/bin/env python3
"""journal_show on examples: lines of items, what completes what, and which items have lines.

Standard output, the whole of standard error and the status are compared. failures.py has wrong arguments, and inputs
and outputs that fail.
"""
from __future__ import annotations

import re

import checks
import filter_cases
from programs import Program, go_to_streams

RECORDED = (
    '#0 InputCommand "input"\n',
    '#1 SetStateCommand "counter" "1"\n',
    '#2 CallCommand Greeter greet "hello"\n',
    '#3 CallCompletionNotification "hi" completes #2 CallCommand Greeter greet "hello"\n',
    '#4 OutputCommand "done"\n',
)
OPEN = 'open id 1: the invocation id of #2 CallCommand Greeter greet "hello"\n'
CUT = "offset 21: 8 bytes after the last whole item"


def field(number: int, content: bytes | int) -> bytes:
    """A record of a payload: a number below 128, or bytes of which there are fewer."""
    if isinstance(content, int):
        return bytes((number * 8, content)) if number < 16 else bytes((number * 8 % 128 + 128, number // 16, content))
    return bytes((number * 8 + 2, len(content))) + content


def frame(code: int, *fields: bytes) -> bytes:
    """A message of these fields."""
    payload = b"".join(fields)
    return code.to_bytes(2, "big") + bytes(2) + len(payload).to_bytes(4, "big") + payload


def failure(code: int, message: bytes) -> bytes:
    return field(1, code) + field(2, message)


RUN, SLEEP, CALL, SIGNAL = 0x0411, 0x040C, 0x040D, 0xFBFF
RUN_DONE, SLEEP_DONE, CALL_ID = 0x8011, 0x800C, 0x800E


def run(number: int, name: bytes) -> bytes:
    return frame(RUN, field(11, number), field(12, name))


def done(number: int, result: bytes) -> bytes:
    return frame(RUN_DONE, field(1, number), result)


# Streams that examples/streams lacks, each with its lines.
MADE: dict[str, tuple[bytes, tuple[str, ...], str]] = {
    "empty": (b"", (), ""),
    # two runs of which one fails, a sleep that goes on, and a run that is completed twice
    "failed": (
        run(1, b"charge")
        + frame(SLEEP, field(1, 9), field(11, 2))
        + run(3, b"ship")
        + done(3, field(5, field(1, b"ok")))
        + done(1, field(6, failure(70, b"card declined")))
        + done(1, field(5, field(1, b"ok"))),
        (
            "#0 RunCommand charge\n",
            "#1 SleepCommand wakeUpTime=9\n",
            "#2 RunCommand ship\n",
            '#3 RunCompletionNotification "ok" completes #2 RunCommand ship\n',
            "#4 RunCompletionNotification failed code=70 card declined completes #0 RunCommand charge\n",
            '#5 RunCompletionNotification "ok" completes id 1\n',
        ),
        "open id 2: #1 SleepCommand wakeUpTime=9\n",
    ),
    # a completion before its command
    "before": (
        done(7, field(5, field(1, b"ok"))) + run(7, b"charge"),
        (
            '#0 RunCompletionNotification "ok" completes id 7\n',
            '#1 RunCommand charge completed by #0 RunCompletionNotification "ok"\n',
        ),
        "",
    ),
    # a call, whose invocation has an id of its own, and a signal, which completes no command
    "call": (
        frame(CALL, field(1, b"S"), field(2, b"h"), field(3, b"{}"), field(10, 1), field(11, 2))
        + frame(CALL_ID, field(1, 1), b"\x82\x01\x03inv")
        + frame(SIGNAL, field(2, 17), field(4, b"")),
        (
            '#0 CallCommand S h "{}"\n',
            '#1 CallInvocationIdCompletionNotification inv completes the invocation id of #0 CallCommand S h "{}"\n',
            "#2 SignalNotification idx=17\n",
        ),
        'open id 2: #0 CallCommand S h "{}"\n',
    ),
    # what a terminal may take as commands, what is not UTF-8, and what is cut after forty bytes or before a character
    "texts": (
        frame(RUN, field(12, b"a\x1b[1m\n\xe2\x80\xae"))
        + frame(0x0403, field(1, b"\xff\x00"), field(3, field(1, b"x" * 40)))
        + frame(0x0403, field(1, b"y" * 41), field(3, field(1, b"z" * 39 + "é".encode())))
        + frame(0x0403, field(1, "a€€€€€€€€€€€€€€".encode()))
        + frame(0x0403, field(1, b"\x80" * 41)),
        (
            "#0 RunCommand a\\u{1b}[1m\\u{a}\\u{202e}\n",
            f'#1 SetStateCommand "\ufffd\\u{{0}}" "{"x" * 40}"\n',
            f'#2 SetStateCommand "{"y" * 40}.." "{"z" * 39}.."\n',
            '#3 SetStateCommand "a€€€€€€€€€€€€€.."\n',
            f'#4 SetStateCommand "{chr(0xfffd) * 37}.."\n',
        ),
        "",
    ),
    # a malformed payload, one that is not canonical, an error, a custom entry
    "odd": (
        frame(RUN, b"\n")
        + frame(RUN, field(12, b"second"), field(12, b"last"), b"\x58\x05")
        + frame(0x0002, field(1, 100), field(2, b"boom"), field(3, b"at x"))
        + frame(0xFC00, b"abc"),
        (
            "#0 RunCommand malformed\n",
            "#1 RunCommand last\n",
            "#2 Error code=100 boom at x\n",
            '#3 CustomEntry(64512) "abc"\n',
        ),
        "open id 5: #1 RunCommand last\n",
    ),
}

FAILED, ODD = MADE["failed"][1], MADE["odd"][1]
SLEEPS = MADE["failed"][2]

# Words, and the output; the standard input is the stream recorded.
CASES: tuple[tuple[str, str, *tuple[str, ...]], ...] = (
    ("", "".join(RECORDED) + OPEN),
    ("-", "".join(RECORDED) + OPEN),
    ("--protocol 5 recorded", "".join(RECORDED) + OPEN),
    *((name, "".join(lines) + last) for name, (_, lines, last) in MADE.items()),
    # which items have lines
    ("--commands recorded", "".join((*RECORDED[:3], RECORDED[4])) + OPEN),
    ("--commands failed", "".join(FAILED[:3]) + SLEEPS),
    ("--failures failed", FAILED[4]),
    ("--failures --commands failed", ""),
    ("--failures odd", ODD[0] + ODD[2]),
    ("--failures --open odd", ""),
    ("--open failed", SLEEPS),
    ("--open --commands --from 1 --to 1 failed", SLEEPS),
    ("--open --from 2 failed", ""),
    ("--open --to 0 failed", ""),
    ("--from 4 failed", "".join(FAILED[4:])),
    ("--from 2 --to 3 failed", "".join(FAILED[2:4])),
    ("--from 3 --to 2 failed", ""),
    ("--to 0 recorded", RECORDED[0]),
    ("--from 18446744073709551615 failed", ""),
    # unassigned codes, and trailing bytes
    ("unknown_type", "#0 unknown 0x8\n#1 End\n"),
    ("--protocol 9 unknown_type", "#0 skipped 0x8 8\n"),
    ("cut_short", '#0 ProposeRunCompletion resultCompletionId=1 "x"\n#1 CustomEntry(64513) ""\n', CUT),
)

# Words, the lines that are written, and the message that is longer than the limit.
TOO_LONG: tuple[tuple[str, str, str], ...] = (
    ("--max-message 8 recorded", "", "InputCommand at offset 0: 9 bytes of payload, more than the limit of 8"),
    ("--max-message 26 recorded", "".join(RECORDED[:2]),
     "CallCommand at offset 39: 27 bytes of payload, more than the limit of 26"),
)


# A word that the page takes, since it has the whole journal, and what is said of it here.
NOT_OPEN = ("-is:open", "-is:open: what is open is known only at the end of a journal")


def filters(check: checks.Check, show: Program) -> None:
    """Compares what each filter of examples/filters.txt finds."""
    for stream, cases in filter_cases.cases():
        for words, found in cases:
            ended = show.run(("--where", words, "-"), stream)
            shown = re.findall(r"^(open [^#]*)?#(\d+) ", ended.out.decode(), re.MULTILINE)
            wanted = "is:open" in words
            indices = [int(index) for is_open, index in shown if bool(is_open) == wanted]
            check.case(f"--where {words}", ended.status == 0 and indices == found, ended)
    for words, said in (*filter_cases.WRONG, NOT_OPEN):
        ended = show.run(("--where", words), b"")
        check.case(f"--where {words}", ended.status == 2 and said in ended.err.decode(), ended)


def main(check: checks.Check) -> None:
    show = Program(check, "journal_show", "recorded")
    filters(check, show)
    go_to_streams(check, {name: stream for name, (stream, _, _) in MADE.items()})
    for words, out, *said in CASES:
        show.ends(words, out, "".join(f"journal_show: {line}\n" for line in said))
    for words, out, message in TOO_LONG:
        show.ends(words, out, f"journal_show: {message}\n", 1)


if __name__ == "__main__":
    checks.perform(main)
