"""Streams and their dumps, with protobuf's own JSON printer as the judge:

    protobuf_dumps.py --write FOLDER FROM
        writes the stored run of journal and the JSON of each message below a folder, for tools/generate.py, from the
        records and the types below another one
    protobuf_dumps.py --random SEED COUNT PROGRAM [WORD..]
        COUNT random payloads of each message type in one stream, dumped by the program and printed by protobuf
    protobuf_dumps.py --other PROTO SEED COUNT PROGRAM [WORD..]
        the same by the messages of another .proto file, which have the names here or their codes, as Type1026; its
        subcommand make makes a stream of the dump, and that is dumped with the same payloads

It needs protoc and python3's protobuf (Debian's protobuf-compiler and python3-protobuf). Nothing of this project's own
code takes part: payloads are those of conformance/records.txt, which protoc made, and what protobuf makes of random
values; a type's code is that of proto/types.txt. The last line of --random is 'N passed, M failed'.
"""
import base64
import importlib
import itertools
import json
import pathlib
import random
import subprocess
import sys
import tempfile

from google.protobuf import json_format
from google.protobuf.descriptor import FieldDescriptor

ROOT = pathlib.Path(__file__).resolve().parents[2]
RECORDS = "conformance/records.txt"

HEAD = """\
# The JSON of each message: with every field present, with each member of its oneofs in turn, and with nothing present.
# The payloads are those of conformance/records.txt, which are protoc's; the JSON is protobuf's own.
"""


def load(proto=ROOT / "proto" / "journal.proto"):
    """The messages of a .proto file by their names."""
    with tempfile.TemporaryDirectory() as work:
        folders = [f"-I{folder}" for folder in (proto.parent, ROOT / "proto")]
        subprocess.run(["protoc", f"--python_out={work}", *folders, "options.proto", proto.name], check=True)
        sys.path.insert(0, work)
        return importlib.import_module(f"{proto.stem}_pb2")


def types(root):
    """The names of types and their codes."""
    found = {}
    for line in (root / "proto" / "types.txt").read_text().splitlines():
        if line and not line.startswith("#"):
            code, name = line.split()[:2]
            found[name] = int(code, 16)
    return found


def text_of(value):
    """A value of JSON without spaces, all but control characters as they are."""
    return json.dumps(value, separators=(",", ":"), ensure_ascii=False)


def printed(kind, payload):
    """A payload as protobuf prints it, or None where it is malformed."""
    message = kind()
    try:
        message.ParseFromString(payload)
    except Exception:
        return None
    return in_rows(message.DESCRIPTOR, json_format.MessageToDict(message, use_integers_for_enums=True))


def in_rows(kind, shown):
    """What protobuf prints of a message, a member of a oneof at the least number of that, where the schema has it."""
    def place(field):
        return min(member.number for member in (field.containing_oneof.fields if field.containing_oneof else [field]))

    def value(field):
        held = shown[field.json_name]
        if field.message_type is None:
            return held
        return (
            [in_rows(field.message_type, one) for one in held]
            if isinstance(held, list)
            else in_rows(field.message_type, held)
        )

    return {field.json_name: value(field) for field in sorted(kind.fields, key=place) if field.json_name in shown}


def frame(code, payload, flag=0):
    return code.to_bytes(2, "big") + flag.to_bytes(2, "big") + len(payload).to_bytes(4, "big") + payload


def base64_of(data):
    return base64.b64encode(data).decode()


def header_of(more, plain):
    """The member of a header that is not the one which would be written."""
    return {} if more[:8] == plain[:8] else {"header": base64_of(more[:8])}


class Stream:
    """A stream, and the lines of its dump."""

    def __init__(self, kinds, root=ROOT):
        self.kinds = kinds
        self.codes = types(root)
        self.bytes = b""
        self.lines = []

    def put(self, more, **members):
        self.lines.append(text_of({"offset": len(self.bytes), **members}))
        self.bytes += more

    def kind_of(self, name):
        """The message of a type, by its name or by its code."""
        return getattr(self.kinds, name + "Message", None) or getattr(self.kinds, f"Type{self.codes[name]}")

    def message(self, name, payload, flag=0, kind=None):
        """A message of a type, which is read as the kind, or else as the message of its name."""
        code = self.codes[name]
        read_as = getattr(self.kinds, kind) if kind else self.kind_of(name)
        value = printed(read_as, payload)
        head = {"type": name, "code": code, "length": len(payload)}
        if name == "ProposeRunCompletion":
            head["requestedAck"] = flag & 0x8000 != 0
        shown = {"message": value}
        if value is None:
            shown = {"malformed": True, "bytes": base64_of(payload)}
        more = frame(code, payload, flag)
        plain = frame(code, payload, 0x8000 if head.get("requestedAck") else 0)
        self.put(more, **head, **header_of(more, plain), **shown)

    def end(self, rest):
        self.put(rest, rest=len(rest), **({"bytes": base64_of(rest)} if rest else {}))
        return self.bytes, "".join(line + "\n" for line in self.lines)


def records(root):
    """The messages of conformance/records.txt and their payloads."""
    for line in (root / RECORDS).read_text().splitlines():
        words = line.split(" ")
        if words[0] == "record":
            yield words[1], b"" if words[2] == "-" else bytes.fromhex(words[2])


def json_lines(kinds, root):
    """The JSON of these payloads, one per line."""
    lines = [
        f"json {name} {payload.hex() or '-'} = {text_of(printed(getattr(kinds, name), payload))}\n"
        for name, payload in records(root)
    ]
    return HEAD + "".join(lines)


def future_of(kinds, levels):
    future = kinds.Future(combinator_type=1)
    for _ in range(levels):
        future = kinds.Future(nested_futures=[future])
    return future


def stored(kinds, root):
    """The stream of the stored run: each message with every field, with each member of its oneofs, and empty; texts
    with every escape; ninety levels; a malformed payload between two good ones; headers with bits that say nothing;
    items that are not messages; and a rest."""
    stream = Stream(kinds, root)
    for name, payload in records(root):
        if name.endswith("Message"):
            short = name[: -len("Message")]
            stream.message(short, payload, 0x8000 if payload and short == "ProposeRunCompletion" else 0)
    text = "".join(map(chr, range(0x20))) + "\"\\/\x7f\u0080\u2028\u2029\ufffd\U0001f600"
    stream.message("Error", kinds.ErrorMessage(message=text).SerializeToString())
    stream.message("InputCommand", kinds.InputCommandMessage(headers=[kinds.Header()], name="\0").SerializeToString())
    stream.message("Start", kinds.StartMessage(random_seed=2**64 - 1, limit_key="").SerializeToString())
    stream.message(
        "Error",
        kinds.ErrorMessage(behavior=-(2**31), related_command_index=0, next_retry_delay=0).SerializeToString(),
    )
    stream.message("Suspension", kinds.SuspensionMessage(awaiting_on=future_of(kinds, 90)).SerializeToString())
    stream.message("Start", b"\x08")
    stream.message("End", b"")
    stream.put(frame(0xFC01, b"\xff\x00custom"), type="CustomEntry(64513)", code=0xFC01, length=8, bytes="/wBjdXN0b20=")
    stream.put(frame(8, b""), unknown=True, code=8)
    stream.message("End", b"\x0a\x01x")
    for flag in (0x8000, 1, 0x7FFF):
        stream.message("End", b"", flag)
    for flag in (1, 0x8001, 0xFFFF):
        stream.message("ProposeRunCompletion", b"", flag)
    stream.message("Start", b"\x08", 0x4000)
    stream.put(
        frame(0xFC01, b"", 0x8000), type="CustomEntry(64513)", code=0xFC01, length=0, header="/AGAAAAAAAA=", bytes=""
    )
    stream.put(frame(8, b"", 0x8000), unknown=True, code=8, header="AAiAAAAAAAA=")
    stream.put(frame(8, b"x")[:8], unknown=True, code=8, header="AAgAAAAAAAE=")
    return stream.end(frame(3, b"12345678")[:11])


def character(r):
    """A control character, one of ASCII, a quotation mark, a backslash, or one beyond ASCII."""
    beyond = [range(0xA0, 0x3000), range(0x1F300, 0x1F700)]
    return chr(r.choice([r.randrange(0x20), r.randrange(0x80), 0x22, 0x5C, *map(r.choice, beyond)]))


SCALARS = {
    FieldDescriptor.TYPE_UINT32: lambda r: r.choice([0, 1, 127, 128, 2**32 - 1, r.getrandbits(32)]),
    FieldDescriptor.TYPE_UINT64: lambda r: r.choice([0, 1, 2**53 + 1, 2**64 - 1, r.getrandbits(64)]),
    FieldDescriptor.TYPE_BOOL: lambda r: r.random() < 0.5,
    FieldDescriptor.TYPE_ENUM: lambda r: r.choice([0, 1, -1, 2**31 - 1, -(2**31), r.randrange(-5, 9)]),
    FieldDescriptor.TYPE_STRING: lambda r: "".join(character(r) for _ in range(r.choice([0, 1, 5, 40]))),
    FieldDescriptor.TYPE_BYTES: lambda r: r.randbytes(r.choice([0, 1, 2, 3, 4, 60])),
}


def fill(r, message, deep):
    """Sets some fields of a message at random."""
    for field in message.DESCRIPTOR.fields:
        if r.random() < 0.4:
            continue
        if field.label == FieldDescriptor.LABEL_REPEATED:
            target = getattr(message, field.name)
            for _ in range(r.choice([1, 2, 5])):
                if field.message_type is None:
                    target.append(SCALARS[field.type](r))
                elif deep < 4:
                    fill(r, target.add(), deep + 1)
        elif field.message_type is None:
            setattr(message, field.name, SCALARS[field.type](r))
        else:
            getattr(message, field.name).SetInParent()
            if deep < 4:
                fill(r, getattr(message, field.name), deep + 1)


def payload_of(r, kind):
    """A payload of one to three values, which merge, and sometimes a field that the message does not have."""
    payload = b""
    for _ in range(r.choice([1, 1, 2, 3])):
        message = kind()
        fill(r, message, 0)
        payload += message.SerializeToString()
        if r.random() < 0.1:
            payload += bytes([0xFA, 0x3F, 0x02, 0xFF, 0xFE])
    return payload


def payloads_of(dump):
    """What the lines of a dump have, without where items are and how long they are, which a header says too."""
    found = []
    for line in dump.splitlines():
        members = {key: value for key, value in json.loads(line).items() if key not in ("offset", "length")}
        if "header" in members:
            members["header"] = base64.b64decode(members["header"])[:4]
        found.append(members)
    return found


def dump_random(stream, seed, count, command, is_made=False):
    r = random.Random(seed)
    for _ in range(count):
        for name in stream.codes:
            flag = r.choice([0, 0, 0, 0x8000, 1, r.getrandbits(16)])
            stream.message(name, payload_of(r, stream.kind_of(name)), flag)
    rest, end = r.randbytes(r.randrange(2, 8)), len(stream.bytes)
    given, wanted = stream.end(rest)
    called = itertools.takewhile(lambda word: not word.startswith("-"), command[1:])
    name = " ".join([pathlib.PurePath(command[0]).name, *called])
    told = f"{name}: offset {end}: {len(rest)} bytes after the last whole item\n"
    run = subprocess.run(command, input=given, capture_output=True, check=False)
    lines = run.stdout.decode().split("\n")[:-1]
    passed = failed = 0
    for number, want in enumerate(wanted.split("\n")[:-1]):
        line = lines[number] if number < len(lines) else ""
        if line == want and json.loads(line) == json.loads(want):
            passed += 1
        else:
            failed += 1
            if failed < 5:
                print(f"failed: line {number}:\n  is     {line}\n  is not {want}")
    if run.returncode != 0 or len(lines) != len(stream.lines) or run.stderr.decode() != told:
        failed += 1
        print(f"failed: status {run.returncode}, {len(lines)} lines, standard error: {run.stderr.decode()}")
    if is_made:
        made = subprocess.run([command[0], "make", *command[2:]], input=run.stdout, capture_output=True, check=False)
        again = subprocess.run(command, input=made.stdout, capture_output=True, check=False)
        is_same = made.returncode == 0 and payloads_of(again.stdout) == payloads_of(run.stdout)
        passed, failed = passed + is_same, failed + (not is_same)
        if not is_same:
            print(f"failed: made again: status {made.returncode}, standard error: {made.stderr.decode()}")
    print(f"{passed} passed, {failed} failed")
    return 1 if failed else 0


def main():
    words = sys.argv[1:]
    if words[:1] == ["--other"] and len(words) >= 5:
        stream = Stream(load(pathlib.Path(words[1])))
        return dump_random(stream, int(words[2]), int(words[3]), words[4:], is_made=True)
    kinds = load()
    if words[:1] == ["--random"] and len(words) >= 4:
        return dump_random(Stream(kinds), int(words[1]), int(words[2]), words[3:])
    if words[:1] != ["--write"] or len(words) != 3:
        sys.exit(__doc__)
    root = pathlib.Path(words[2])
    given, wanted = stored(kinds, root)
    files = {
        "crates/journal/stdin": given,
        "crates/journal/stdout": wanted.encode(),
        "conformance/json/records.txt": json_lines(kinds, root).encode(),
    }
    for path, data in files.items():
        target = pathlib.Path(words[1]) / path
        target.parent.mkdir(parents=True, exist_ok=True)
        target.write_bytes(data)
    return 0


if __name__ == "__main__":
    sys.exit(main())
