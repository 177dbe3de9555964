"""The stored run of journal and the JSON of each message, with protobuf's own printer as the judge:
protobuf_dumps.py makes them, in a Python that has protobuf."""
import pathlib
import shutil
import subprocess
import sys
import tempfile

from . import record_vectors, tables
from .proto import without_protoc

ABOUT = "The stored run of journal, and the JSON of each message."
SOURCE = "conformance/records.txt, by protobuf"

MAKER = pathlib.Path(__file__).with_name("protobuf_dumps.py")


def interpreter():
    """A Python that has protobuf, or None: this one, or the one of the distribution."""
    for python in (sys.executable, "/usr/bin/python3"):
        imports = [python, "-c", "import google.protobuf"]
        if shutil.which(python) and subprocess.run(imports, capture_output=True).returncode == 0:
            return python
    return None


def missing():
    reason = without_protoc()
    if reason is None and interpreter() is None:
        reason = "there is no protobuf for Python (python3-protobuf)"
    return reason


def paths():
    return ["crates/journal/stdin", "crates/journal/stdout", "conformance/json/records.txt"]


def files():
    with tempfile.TemporaryDirectory() as work:
        # these may not be written yet
        for path, text in {record_vectors.FILE: record_vectors.records(), "proto/types.txt": tables.types()}.items():
            (pathlib.Path(work) / path).parent.mkdir(parents=True, exist_ok=True)
            (pathlib.Path(work) / path).write_text(text, encoding="utf-8")
        subprocess.run([interpreter(), "-B", MAKER, "--write", work, work], check=True)
        return {path: (pathlib.Path(work) / path).read_bytes() for path in paths()}
