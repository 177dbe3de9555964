#!/usr/bin/env python3
"""journal_make on lines that it takes and that it rejects; the streams of conformance/ and random ones, made again.

Each row is a case: the program's output, the whole of its standard error and its status are compared. A line
is rejected between two that are taken; the frame of the first one is written. There is a row for each reason but
TooLong, which a payload of 4 GiB has. failures.py has wrong arguments, and inputs and outputs that fail.
"""
from __future__ import annotations

import base64
import sys

import checks
from programs import Program, go_to_streams

END = '{"type":"End","message":{}}'
END_FRAME = "0003000000000000"
INPUT_FRAME = "0400000000000009 72070a05696e707574"

# How many random streams are dumped and made again.
RANDOM = "10000"

# What is written for lines: hexadecimal digits, the lines, and the version if it is not the program's own.
TAKEN = [
    ("", ""),
    ("", "\n"),
    (END_FRAME, END),
    (END_FRAME, f" \t{END}\n \t\r\n"),
    (END_FRAME * 2, f"{END}\n\n{END}\n"),
    # a message, by its type or its code, in the forms of base64, or with a text
    (INPUT_FRAME, '{"type":"InputCommand","message":{"value":{"content":"aW5wdXQ="}}}'),
    (INPUT_FRAME, '{"code":1024,"message":{"value":{"content":"aW5wdXQ"}}}'),
    (INPUT_FRAME, '{"type":"InputCommand","message":{"value":{"content":{"text":"input"}}}}'),
    # bytes
    (INPUT_FRAME, '{"length":3,"code":"1024","type":"InputCommand","offset":7,"bytes":null,"payload":"cgcKBWlucHV0"}'),
    (INPUT_FRAME, '{"type":"InputCommand","bytes":{"text":"r\\u0007\\n\\u0005input"}}'),
    ("0003000000000001 0a", '{"type":"End","code":3,"length":1,"malformed":true,"bytes":"Cg=="}'),
    ("fc01000000000001 00", '{"type":"CustomEntry(64513)","code":64513,"bytes":"AA=="}'),
    ("0008000000000001 00", '{"code":8,"skipped":true,"bytes":"AA=="}'),
    # the flag, also in a given header
    ("0005800000000000", '{"type":"ProposeRunCompletion","requestedAck":true,"message":{}}'),
    ("0005000000000000", '{"type":"ProposeRunCompletion","ack":false,"message":{}}'),
    ("0005800100000000", '{"type":"ProposeRunCompletion","ack":true,"header":"AAWAAQAAAAA=","message":{}}'),
    ("0005000100000000", '{"type":"ProposeRunCompletion","header":"AAUAAQAAAAA=","message":{}}'),
    # no flag of this type
    ("0003800000000000", '{"type":"End","header":"AAOAAAAAAAA=","message":{}}'),
    # a header that is given has the length of the payload
    ("000300010000000a 01020304050607080900", '{"type":"End","header":"AAMAAQAAAAA=","bytes":"AQIDBAUGBwgJAA=="}'),
    (INPUT_FRAME, '{"type":"InputCommand","header":"BAAAAAAAAAA=","message":{"value":{"content":"aW5wdXQ="}}}'),
    # only a header, whose length readers before V9 ignore
    ("0008000000000000", '{"code":8,"unknown":true}'),
    ("0008000000000005", '{"code":8,"unknown":true,"header":"AAgAAAAAAAU="}'),
    ("0008000000000000", '{"code":8,"unknown":true}', 9),
    ("0008ffff00000000", '{"code":8,"unknown":true,"header":"AAj//wAAAAA="}', 9),
    # the bytes after the last item
    ("000300", '{"offset":0,"rest":3,"bytes":"AAMA"}'),
    ("", '{"offset":0,"rest":0}'),
    # a suspension has another schema before V7
    ("0001000000000003 0a0101", '{"type":"Suspension","message":{"waitingCompletions":[1]}}', 6),
]

# Why a line is rejected, the line, and the version.
REJECTED = [
    ("not JSON at byte 2", "{]"),
    ("not JSON at byte 3", "{} {}"),
    ("not JSON at byte 1", "["),
    ("not JSON at byte 0", "End"),
    # an object that is not on one line
    ("the line ends within an object; one object a line: jq -c", '{\n  "type": "End",\n  "message": {}\n}'),
    ("the line ends within an object; one object a line: jq -c", ' {"type": "End", \r\n"message": {}}'),
    ("wrong kind of value", "[]"),
    ("other: unknown member", '{"type":"End","other":1,"message":{}}'),
    ("type: repeated member", '{"type":"End","type":"End","message":{}}'),
    ("ack: repeated member", '{"type":"ProposeRunCompletion","ack":true,"requestedAck":true,"message":{}}'),
    # the type and the code
    ("neither a type nor a code", '{"message":{}}'),
    ("type: no named type has the name 'Nothing'", '{"type":"Nothing","message":{}}'),
    ("type: no named type has the name ''", '{"type":"","message":{}}'),
    ("type: no named type has the name 'CustomEntry(64513)'", '{"type":"CustomEntry(64513)","bytes":""}'),
    ("type: not the name of the code's type", '{"type":"Start","code":3,"message":{}}'),
    ("type: not the name of the code's type", '{"type":"Start","code":8,"bytes":""}'),
    ("type: wrong kind of value", '{"type":3,"message":{}}'),
    ("code: out of range", '{"code":65536,"bytes":""}'),
    ("code: out of range", '{"code":1.5,"bytes":""}'),
    ("code: wrong kind of value", '{"code":"End","bytes":""}'),
    # the payload
    ("no message and no bytes", '{"type":"End"}'),
    ("more than one payload", '{"type":"End","message":{},"bytes":""}'),
    ("more than one payload", '{"type":"End","payload":"","bytes":""}'),
    ("message: no messages have this code", '{"code":8,"message":{}}'),
    ("message: wrong kind of value", '{"type":"End","message":[]}'),
    ("message.headers[1].key: wrong kind of value", '{"type":"InputCommand","message":{"headers":[{},{"key":1}]}}'),
    ("message.serviceName: wrong kind of value", '{"type":"CallCommand","message":{"service_name":1}}'),
    ("message.waitingCompletions: unknown member", '{"type":"Suspension","message":{"waitingCompletions":[1]}}'),
    ("bytes: not base64", '{"type":"End","bytes":"A"}'),
    ("bytes: wrong kind of value", '{"type":"End","bytes":{"text":"","length":0}}'),
    ("payload: not base64", '{"type":"End","payload":"A"}'),
    ("payload: not base64", '{"type":"End","bytes":null,"payload":"A"}'),
    ("unknown: wrong kind of value", '{"code":8,"unknown":false}'),
    ("unknown: wrong kind of value", '{"code":8,"unknown":1}'),
    ("unknown: the code is that of a type", '{"type":"End","unknown":true}'),
    ("unknown: the code is that of a type", '{"type":"InputCommand","unknown":true,"header":"BAAAAAAAAAU="}'),
    ("unknown: the code is that of a type", '{"code":64513,"unknown":true}'),
    # the flag
    ("ack: the type has no such flag", '{"type":"End","ack":true,"message":{}}'),
    ("requestedAck: the type has no such flag", '{"type":"End","requestedAck":false,"message":{}}'),
    ("requestedAck: the type has no such flag", '{"code":8,"unknown":true,"requestedAck":false}'),
    ("requestedAck: wrong kind of value", '{"type":"ProposeRunCompletion","requestedAck":1,"message":{}}'),
    ("ack: wrong kind of value", '{"type":"ProposeRunCompletion","ack":"true","message":{}}'),
    ("ack: wrong kind of value", '{"type":"ProposeRunCompletion","requestedAck":null,"ack":1,"message":{}}'),
    # the header
    ("header: not base64", '{"type":"End","header":"A","message":{}}'),
    ("header: wrong kind of value", '{"type":"End","header":1,"message":{}}'),
    ("header: not eight bytes", '{"type":"End","header":"AAA=","message":{}}'),
    ("header: not eight bytes", '{"type":"End","header":"AAMAAAAAAAAA","message":{}}'),
    ("header: its code is not that of the line", '{"type":"End","header":"BAAAAAAAAAA=","message":{}}'),
    ("header: its code is not that of the line", '{"code":8,"unknown":true,"header":"AQEBAQEBAQE="}'),
    ("header: its code is not that of the line", '{"code":8,"skipped":true,"header":"AAkAAAAAAAE=","bytes":"AA=="}', 9),
    ("header: its flag is not that of the line",
     '{"type":"ProposeRunCompletion","requestedAck":true,"header":"AAUAAAAAAAA=","message":{}}'),
    ("header: its flag is not that of the line",
     '{"type":"ProposeRunCompletion","ack":false,"header":"AAWAAAAAAAA=","message":{}}'),
    ("header: its flag is not that of the line",
     '{"type":"ProposeRunCompletion","header":"AAWAAAAAAAA=","message":{}}'),
    ("header: it announces a payload, and none is there", '{"code":8,"unknown":true,"header":"AAgAAAAAAAU="}', 9),
    # the bytes after the last item
    ("rest: the rest is no item", '{"type":"End","rest":0}'),
    ("rest: a rest without its bytes", '{"rest":1}'),
    ("rest: wrong kind of value", '{"rest":true}'),
    ("rest: out of range", '{"rest":-1}'),
    ("bytes: not base64", '{"rest":3,"bytes":"A"}'),
]


def main(check: checks.Check) -> None:
    make = Program(check, "journal_make")
    go_to_streams(check, {"lines": b'{"type":"Start"}'})
    for frames, lines, *version in TAKEN:
        words = "".join(f"--protocol {number}" for number in version)
        make.ends(words, bytes.fromhex(frames), given=lines.encode(), what=lines)
    for why, line, *version in REJECTED:
        words = "".join(f"--protocol {number}" for number in version)
        lines = f"{END}\n{line}\n{END}".encode()
        make.ends(words, bytes.fromhex(END_FRAME), f"journal_make: -:2: {why}\n", 1, given=lines, what=line)
    make.ends("lines", "", "journal_make: lines:1: no message and no bytes\n", 1)

    content = bytes(17 << 20)
    line = b'{"type":"InputCommand","message":{"value":{"content":"' + base64.b64encode(content) + b'"}}}\n'
    large = b"\x04\0\0\0\x01\x10\0\nr\x85\x80\xc0\x08\n\x80\x80\xc0\x08" + content
    make.ends("", large, given=line, what="of a line of 24 MiB")

    words = [
        sys.executable,
        "-B",
        checks.ROOT / "scripts/checks/made_streams.py",
        check.program("journal_dump"),
        make.path,
    ]
    told = check.counted("streams made again", [*words, RANDOM])
    print(f"make: streams made again: {told.out.decode().splitlines()[-2]}")


if __name__ == "__main__":
    checks.perform(main)
