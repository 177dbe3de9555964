#!/usr/bin/env python3
"""share/wireshark/pendratsoa.lua shows streams as their listings and payloads as their test vectors say, in tshark.

The streams of examples/ and conformance/ are packets of TCP, split as they are there, each at its version; payloads of
conformance/ are frames, and those that are malformed are marked; and a stream is the body of a request of HTTP/2,
of each media type, ended and still open. Random bytes are changed as well, where no error of Lua may come.
"""
from __future__ import annotations

import collections.abc
import dataclasses
import functools
import json
import pathlib
import random
import re
import struct

from checks import ROOT, Check, Run, perform, run

SCRIPT = ROOT / "share" / "wireshark" / "pendratsoa.lua"
VERSIONS = range(5, 10)
USUAL = 8
PORT = 7000
WEB = 7001

# The most bytes of a segment, so that packets have fewer than 64 KiB.
MOST = 30000

# The parts of an item, as tshark shows them, each joined where there are several.
PARTS = ("tcp.srcport", "pendratsoa.name", "pendratsoa.length", "pendratsoa.requested_ack")


@dataclasses.dataclass
class Packets:
    """Packets of a client on one host, which talks to a port of it from ports of its own."""

    port: int
    data: bytes = struct.pack("<IHHiIII", 0xA1B2C3D4, 2, 4, 0, 0, 0x40000, 101)
    sources: int = 10000

    def add(self, segments: list[bytes]) -> int:
        """Adds a conversation; the port from which it comes."""
        self.sources += 1
        number = 1
        self.packet(0, b"", 0x02)
        for segment in segments:
            for at in range(0, len(segment), MOST):
                self.packet(number, segment[at:at + MOST], 0x18)
                number += len(segment[at:at + MOST])
        return self.sources

    def packet(self, number: int, data: bytes, flags: int) -> None:
        tcp = struct.pack(">HHIIBBHHH", self.sources, self.port, number, 0, 0x50, flags, 65535, 0, 0)
        host = b"\x7f\0\0\1"
        whole = struct.pack(">BBHHHBBH", 0x45, 0, 40 + len(data), 0, 0, 64, 6, 0) + host + host + tcp + data
        self.data += struct.pack("<IIII", 0, 0, len(whole), len(whole)) + whole


def shown(check: Check, packets: Packets, words: list[str]) -> str:
    """What tshark shows of packets; it says nothing on the standard error, and nothing of an error in Lua."""
    path = check.work / "packets.pcap"
    path.write_bytes(packets.data)
    kind = "pendratsoa" if packets.port == PORT else "http2"
    asked = ["tshark", "-X", f"lua_script:{SCRIPT}", "-r", path, "-d", f"tcp.port=={packets.port},{kind}", *words]
    ended = run(asked, env={"PATH": "/usr/bin:/bin:/usr/sbin", "HOME": str(check.work)})
    told = "\n".join(
        line for line in ended.err.decode().splitlines() if line and "as user \"root\"" not in line
    )
    check.case(f"tshark {' '.join(words)[:60]} has no error", ended.status == 0 and not told, told or ended)
    return ended.out.decode()


def columns(names: tuple[str, ...]) -> list[str]:
    """The words that ask for fields, one packet a line, with what is in it several times joined."""
    return ["-T", "fields", "-E", "aggregator=;", *(word for name in names for word in ("-e", name))]


def listing(rows: list[list[str]]) -> list[str]:
    """Items as a listing has them, without what is in none."""
    items = []
    for _, names, lengths, acks in rows:
        for name, length, ack in zip(names.split(";"), lengths.split(";"), acks.split(";")):
            if name.startswith("unknown"):
                items.append((name, length))
            elif name:
                is_asked = name == "ProposeRunCompletion" and ack in ("1", "True")
                items.append((f"{name} {length}{' ack' if is_asked else ''}", length))
    return items


def expected(text: str) -> list[str]:
    """The items of a listing."""
    return [item for item in re.split(r", |\n", text.strip()) if not item.startswith("rest ")]


def vectors(name: str, kind: str) -> list[tuple[list[str], str]]:
    """The lines of a kind in a file of test vectors: the words, and the result."""
    lines = (ROOT / "conformance" / name).read_text(encoding="utf-8").splitlines()
    found = [line.split(" = ", 1) for line in lines if line.startswith(f"{kind} ")]
    return [(words.split(" ")[1:], result) for words, result in found]


def chunks_of(words: list[str]) -> list[bytes]:
    return [bytes.fromhex(word.replace("-", "")) for word in words]


def streams() -> list[tuple[int, list[bytes], list[str]]]:
    """Streams, each with its version, its chunks and its items."""
    found = [(int(words[0]), chunks_of(words[1:]), expected(result))
             for name in ("streams.txt", "random_streams.txt") for words, result in vectors(name, "stream")]
    for place in sorted((ROOT / "examples" / "streams").glob("*.stdout")):
        data, arguments = place.with_suffix("").read_bytes(), place.with_suffix(".args")
        version = 9 if arguments.exists() and "v9" in arguments.read_text() else USUAL
        pieces = [data[at:at + 7] for at in range(0, len(data), 7)]
        found.append((version, pieces, expected(place.read_text(encoding="utf-8"))))
    return found


def is_listed(items: list[tuple[str, str]], wanted: list[str]) -> bool:
    """Whether items are those of a listing, which says of an unknown one whether it is skipped."""
    if len(items) != len(wanted):
        return False
    for (name, length), item in zip(items, wanted):
        if item.startswith("skipped"):
            item = item.replace("skipped", "unknown", 1).rsplit(" ", 1)[0]
        if item != name:
            return False
    return True


def show_streams(check: Check) -> None:
    """The items of streams over TCP."""
    everything = streams()
    check.case("there are streams of all versions", {version for version, *_ in everything} == set(VERSIONS))
    for version in VERSIONS:
        packets, wanted = Packets(PORT), {}
        for of_version, chunks, items in everything:
            if of_version == version:
                wanted[packets.add(chunks)] = items
        text = shown(check, packets, ["-o", f"pendratsoa.version:{version}", *columns(PARTS)])
        rows: dict[int, list[list[str]]] = {}
        for line in text.splitlines():
            row = line.split("\t")
            rows.setdefault(int(row[0]), []).append(row)
        for source, items in wanted.items():
            found = listing(rows.get(source, []))
            check.case(f"a stream of version {version}", is_listed(found, items), f"{found} and not {items}")


def show_frames(check: Check) -> None:
    """The frame of each type at each version has fields that are known, as the three lists of an earlier suspension."""
    everything = vectors("frames.txt", "frame")
    for version in VERSIONS:
        frames = [(words[0], bytes.fromhex(result)) for words, result in everything
                  if words[1] == str(version) and result != "malformed"]
        packets = Packets(PORT)
        packets.add([data for _, data in frames])
        names = ("pendratsoa.name", "pendratsoa.malformed", "pendratsoa.unknown_field")
        text = shown(check, packets, ["-o", f"pendratsoa.version:{version}", *columns(names), "-Y", "pendratsoa"])
        found = [line.rstrip("\t") for line in text.splitlines()]
        check.same(f"the frames of version {version}", [name for name, _ in frames], found)


def codes() -> dict[str, int]:
    """The codes of the messages of types, by their schemas, without earlier ones."""
    described = json.loads((ROOT / "proto" / "journal.json").read_text(encoding="utf-8"))["description"]
    options = {message["name"]: message.get("options", {}) for message in described["messages"]}
    return {name: one["code"] for name, one in options.items() if "code" in one and "before_version" not in one}


def show_payloads(check: Check) -> None:
    """Payloads that are malformed are marked, and no others."""
    of_type, packets, wanted = codes(), Packets(PORT), []
    segments = []
    for name in ("payloads.txt", "levels.txt", "hostile.txt", "random_runtime.txt"):
        for (schema, *words), result in vectors(name, "payload"):
            data = bytes.fromhex(words[0].replace("-", ""))
            if schema in of_type and len(data) < MOST:
                segments.append(struct.pack(">HHI", of_type[schema], 0, len(data)) + data)
                wanted.append((f"payload {schema} {words[0]}", result == "malformed"))
    packets.add(segments)
    text = shown(check, packets, [*columns(("pendratsoa.name", "pendratsoa.malformed")), "-Y", "pendratsoa"])
    rows = [line.split("\t") for line in text.splitlines()]
    check.case("all payloads are shown", len(rows) == len(wanted) > 0, f"{len(rows)} and not {len(wanted)}")
    for (what, is_malformed), row in zip(wanted, rows):
        check.case(what[:200], bool(row[1]) == is_malformed, row)


def show_fields(check: Check) -> None:
    """Fields have the values that a dump has, and filters find them."""
    place = ROOT / "examples" / "streams" / "replay"
    dump = [json.loads(line) for line in place.with_suffix(".dump").read_text(encoding="utf-8").splitlines()]
    start = next(line["message"] for line in dump if line.get("type") == "Start")
    packets = Packets(PORT)
    packets.add([place.read_bytes()])
    texts = {name: value for name, value in start.items() if name in ("debugId", "key", "knownEntries")}
    names = [f"pendratsoa.start.{re.sub('(?<=[a-z])(?=[A-Z])', '_', name).lower()}" for name in texts]
    found = shown(check, packets, columns(tuple(names))).split("\n")
    check.case("the fields of a start", "\t".join(str(value) for value in texts.values()) in found, found)
    filters = [(f'{name} == {json.dumps(value)}', 1) for name, value in zip(names, texts.values())]
    for words, count in (*filters, ('pendratsoa.start.key == "nothing"', 0), ("pendratsoa.malformed", 0)):
        found = shown(check, packets, ["-Y", words])
        check.case(f"the filter {words}", len(found.splitlines()) == count, found)


def frame(kind: int, flags: int, data: bytes) -> bytes:
    """A frame of HTTP/2, of the first stream or of none."""
    return struct.pack(">I", len(data))[1:] + bytes([kind, flags]) + struct.pack(">I", kind in (0, 1)) + data


def request(media_type: str, bodies: list[bytes], is_ended: bool) -> list[bytes]:
    """A request of HTTP/2 with this media type: the preface, the settings, the header fields and the body."""
    def literal(index: bytes, value: str) -> bytes:
        return index + bytes([len(value)]) + value.encode()

    # of the static table: POST, http, and by their numbers the path, the authority and the content type
    fields = b"\x83\x86" + literal(b"\x04", "/invoke/a/b") + literal(b"\x01", "localhost")
    fields += literal(b"\x0f\x10", media_type)
    parts = [frame(0, int(is_ended and at == len(bodies) - 1), body) for at, body in enumerate(bodies)]
    return [b"PRI * HTTP/2.0\r\n\r\nSM\r\n\r\n" + frame(4, 0, b""), frame(1, 4, fields), *parts]


def show_requests(check: Check) -> None:
    """The bodies of requests, by their media types."""
    data = (ROOT / "examples" / "streams" / "replay").read_bytes()
    items = expected((ROOT / "examples" / "streams" / "replay.stdout").read_text(encoding="utf-8"))
    bodies = [data[at:at + 20] for at in range(0, len(data), 20)]
    packets, wanted = Packets(WEB), {}
    for version in VERSIONS:
        for is_ended in (True, False):
            media_type = f"application/vnd.restate.invocation.v{version}"
            wanted[packets.add(request(media_type, bodies, is_ended))] = f"{media_type}, ended: {is_ended}"
    text = shown(check, packets, columns(PARTS))
    rows = [line.split("\t") for line in text.splitlines()]
    for source, what in wanted.items():
        found = listing([row for row in rows if row[0] == str(source)])
        check.case(what, is_listed(found, items), f"{found} and not {items}")


def show_damaged(check: Check) -> None:
    """Bytes that are changed end in no error of Lua."""
    draw = random.Random(1)
    data = (ROOT / "examples" / "streams" / "replay").read_bytes()
    packets = Packets(PORT)
    for _ in range(300):
        changed = bytearray(data)
        for _ in range(draw.randint(1, 5)):
            changed[draw.randrange(len(changed))] = draw.randrange(256)
        packets.add([bytes(changed)])
    text = shown(check, packets, ["-V"])
    check.case("no error of Lua", "Lua Error" not in text and "Dissector bug" not in text, text[-2000:])
    check.case("some payloads are malformed", "The payload is malformed" in text)


def write_captures(folder: pathlib.Path, data: bytes, script: pathlib.Path = SCRIPT) -> None:
    """Writes the captures that pages name into a home folder, with these bytes, and puts the dissector into the folder
    for plugins there."""
    bodies = [data[at:at + 20] for at in range(0, len(data), 20)]
    captures = {
        "capture.pcap": (9080, request(f"application/vnd.restate.invocation.v{USUAL}", bodies, True)),
        "tcp.pcap": (PORT, bodies),
    }
    for name, (port, segments) in captures.items():
        packets = Packets(port)
        packets.add(segments)
        (folder / name).write_bytes(packets.data)
    plugins = folder / ".local" / "lib" / "wireshark" / "plugins"
    plugins.mkdir(parents=True, exist_ok=True)
    link = plugins / SCRIPT.name
    link.unlink(missing_ok=True)
    link.symlink_to(script)


def run_shown(check: Check, command: str) -> Run:
    """Runs a command of a page in the folder of the captures."""
    return run(["sh", "-c", command], cwd=check.work, env={"PATH": "/usr/bin:/bin", "HOME": str(check.work)})


def show_page(check: Check, run_command: collections.abc.Callable[[str], Run]) -> None:
    """The commands of docs/WIRESHARK.md print what is below them."""
    page = (ROOT / "docs" / "WIRESHARK.md").read_text(encoding="utf-8")
    found = re.findall(r"^    (tshark .*)\n\n((?:    .*\n)+)", page, re.M)
    check.case("the page has commands", len(found) == 3, found)
    for command, block in found:
        ended = run_command(command)
        # with the numbers of another description lengths are others
        wanted, lines = (
            [re.sub(r"\d+", "0", line.strip()) for line in text.splitlines()] for text in (block, ended.out.decode())
        )
        is_there = all(line in lines for line in wanted)
        check.case(command, ended.status == 0 and is_there, ended)


def take_streams(check: Check, data: bytes) -> None:
    """The commands of docs/SOURCES.md write the stream of a capture to a file."""
    page = (ROOT / "docs" / "SOURCES.md").read_text(encoding="utf-8")
    found = re.findall(r"^    (tshark (?:.*\|\n    )?.* > recorded)\n", page, re.M)
    check.case("the page has commands", len(found) == 2, found)
    if not check.has("xxd", "the commands that take a stream out of a capture"):
        return
    for command in found:
        ended = run_shown(check, command)
        taken = (check.work / "recorded").read_bytes()
        check.case(command, ended.status == 0 and taken == data, taken)


def body(check: Check) -> None:
    check.needs("tshark", "tshark")
    for part in (show_streams, show_frames, show_payloads, show_fields, show_requests, show_damaged):
        part(check)
    data = (ROOT / "examples" / "streams" / "replay").read_bytes()
    # the folder for plugins has the dissector from here on
    write_captures(check.work, data)
    show_page(check, functools.partial(run_shown, check))
    take_streams(check, data)


if __name__ == "__main__":
    perform(body)
