"""Which files git takes as they are, and which are generated, .gitattributes."""
import importlib
from pathlib import PurePosixPath

from . import NAMES, ROOT, missing  # noqa: F401

ABOUT = "What git knows of files."
SOURCE = "the lists of generated files"

# Streams are bytes, and their listings are next to them.
AS_THEY_ARE = ("examples/streams/*", "crates/*/stdin")

# The generators whose files are hand-written except some numbers or rows, and this one.
LEFT_OUT = ("pages", "call_pages", "numbered", "versions", "attributes")


def paths():
    return [".gitattributes"]


def generated():
    """The paths of all generated files."""
    found = set()
    for name in NAMES:
        if name not in LEFT_OUT:
            maker = importlib.import_module(f"{__package__}.{name}")
            found.update(maker.paths() if hasattr(maker, "paths") else maker.files())
    return found


def is_generated(folder, made):
    """Whether all files of a folder are generated, except what a build has left in it."""
    files = (path.relative_to(ROOT) for path in (ROOT / folder).rglob("*") if path.is_file())
    return all(path.as_posix() in made or "out" in path.parts for path in files)


def pattern(path, made):
    """The widest pattern that names a generated file, and only generated ones: a folder of them, or the file."""
    widest = path
    for folder in PurePosixPath(path).parents:
        if not is_generated(folder, made):
            break
        widest = f"{folder}/**"
    return widest


def files():
    made = generated()
    lines = [f"{path} -text\n" for path in AS_THEY_ARE]
    lines += [f"{line} linguist-generated\n" for line in sorted({pattern(path, made) for path in made})]
    return {".gitattributes": "".join(lines)}
