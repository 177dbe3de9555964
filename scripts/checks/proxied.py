#!/usr/bin/env python3
"""proxied.py [--record | --pipe] COMMAND..: a proxy passes journals on over sockets of this machine, or over pipes.

The command is one of the examples named proxy, which takes a version, a host and a port after these words, prints the
port at which it listens, and adds 1 to each state that is set. The journals have flags that no encoder sets, lengths
longer than they need to be, custom entries and unknown types, and come in chunks of any size. The beginning of a last
item that is not whole is passed on too, and then the proxy has status 1 and says so. With --record it takes
--record FOLDER before the version, and writes what it takes and what it passes on there. With --pipe it takes only the
version, and passes its standard input on to its standard output.
"""
import pathlib
import random
import socket
import subprocess
import sys
import tempfile
import threading

import taken
import tally

# what is passed on as received: an input, a custom entry and a code that no type has, with all of their flags
KEPT = bytes.fromhex("0400123400000009" "72070a05696e707574" "fc01ffff00000001ff" "0008a5a500000000")
INPUT = KEPT[:-17]
SKIPPED = bytes.fromhex("0008a5a500000003" "000403")
END = bytes.fromhex("0003000000000000")

# a state that is set to 1, with lengths in more bytes than they need; and to 2, in its one encoding
SET = bytes.fromhex("040300000000000a" "0a81000a1a040a810031")
TWO = bytes.fromhex("0403000000000008" "0a010a1a030a0132")

# a state that is set to a number which no double is, and one more
GREAT, GREATER = (bytes.fromhex("0403000000000017" "0a010a1a120a10") + b"900719925474099%d" % digit for digit in (3, 4))

# a state that is set to what is not a number, at which a proxy ends, after it passed on what came before
WORD = bytes.fromhex("0403000000000008" "0a010a1a030a0178")

# A proxy that has not ended by then is one that waits: a bound for failures, and no measure of speed.
SECONDS = 600

# version, what is sent as whole items, what is passed on of them, and what is sent after them
JOURNALS = (
    (8, KEPT + SET + END, KEPT + TWO + END, b""),
    (9, SET + SKIPPED + SET + INPUT, TWO + SKIPPED + TWO + INPUT, b""),
    (8, (KEPT + SET) * 5000, (KEPT + TWO) * 5000, b""),
    (8, KEPT + GREAT, KEPT + GREATER, b""),
    (8, KEPT + WORD, KEPT, b""),
    (8, (KEPT + SET) * 50 + WORD, (KEPT + TWO) * 50, b""),
    (8, b"", b"", b""),
    (8, KEPT + SET, KEPT + TWO, KEPT[:11]),
    (8, SET, TWO, KEPT[:3]),
)


def received(server, found):
    """Appends what one connection of the server sends."""
    connection, _ = server.accept()
    with connection:
        while data := connection.recv(4096):
            found += data


def passed_on(command, version, journal):
    """What the proxy sends for a journal, its status, and what it says."""
    found = bytearray()
    with socket.create_server(("127.0.0.1", 0)) as server:
        reader = threading.Thread(target=received, args=(server, found), daemon=True)
        reader.start()
        words = [*command, str(version), *map(str, server.getsockname())]
        with subprocess.Popen(words, stdout=subprocess.PIPE, stderr=subprocess.PIPE, text=True) as process:
            with socket.create_connection(("127.0.0.1", int(process.stdout.readline()))) as source:
                source.setsockopt(socket.IPPROTO_TCP, socket.TCP_NODELAY, 1)
                while journal:
                    size = random.choice((1, 7, 8, 9, 1000, 100000))
                    source.sendall(journal[:size])
                    journal = journal[size:]
            _, said = process.communicate(timeout=SECONDS)
        reader.join(SECONDS)
    return bytes(found), process.returncode, said


def piped(command, version, journal):
    """The same of a proxy from its standard input to its standard output."""
    words = [*command, str(version)]
    with subprocess.Popen(words, stdin=subprocess.PIPE, stdout=subprocess.PIPE, stderr=subprocess.PIPE) as process:
        found = []
        reader = threading.Thread(target=lambda: found.append(process.stdout.read()), daemon=True)
        reader.start()
        while journal:
            size = random.choice((1, 7, 8, 9, 1000, 100000))
            process.stdin.write(journal[:size])
            process.stdin.flush()
            journal = journal[size:]
            taken.until_taken(process, process.stdin)
        process.stdin.close()
        reader.join(SECONDS)
        said = process.stderr.read().decode()
    return b"".join(found), process.returncode, said


def recorded(folder):
    """What the folder has of what was received, and of what was passed on."""
    return tuple(pathlib.Path(folder, name).read_bytes() for name in ("received", "passed_on"))


def main(command):
    tally.end_by_exception()
    passed = failed = 0
    is_recorded = command[:1] == ["--record"]
    passed_by = piped if command[:1] == ["--pipe"] else passed_on
    command = command[1:] if is_recorded or passed_by == piped else command
    for version, items, wanted, trailing in JOURNALS:
        with tempfile.TemporaryDirectory() as folder:
            words = [*command, "--record", folder] if is_recorded else command
            found, status, said = passed_by(words, version, items + trailing)
            is_right = not is_recorded or recorded(folder) == (items + trailing, wanted + trailing)
        is_whole = not trailing and not items.endswith(WORD)
        is_said = (status == 0, said == "") == (is_whole, is_whole)
        if is_right and is_said and found == wanted + trailing:
            passed += 1
        else:
            failed += 1
            what = f"version {version}, {len(items)} bytes and {len(trailing)}"
            print(f"failed: {what}: status {status}, {len(found)} bytes: {said}")
    print(f"{passed} passed, {failed} failed")
    return 1 if failed else 0


if __name__ == "__main__":
    sys.exit(main(sys.argv[1:]))
