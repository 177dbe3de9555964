"""The version, from the file VERSION, in hand-written files: the library and its contract, the packages of other
languages, and pages. Files that are generated whole take it from `library_version` below. All else of these files is
written by hand.
"""
import re

from . import ROOT, missing  # noqa: F401

ABOUT = "The version of the library, the programs and the packages, in hand-written files."
SOURCE = "VERSION"

# The files say themselves what they are.
IS_WHOLE = False

# By file: the texts after which the version is, each of which is there.
PLACES = {
    "CHANGELOG.md": [r"\A(?:(?!^## ).*\n)*## "],
    "README.md": [r"^Status: ", r"pendratsoa(?:-rust-|-go-|-reference-|[-_])", r"pendratsoa@v"],
    "crates/journal_c_api/mutants/another_library_version.edit": [r'^old: .*LIBRARY_VERSION: &str = "'],
    "crates/journal_c_api/src/names.rt": [r'LIBRARY_VERSION: &str = "', r'codes "'],
    "docs/C.md": [r"libpendratsoa\.so\.", r"The version\*\*, ", r"pendratsoa-"],
    "docs/COMPATIBILITY.md": [r"^No release is published yet\. From "],
    "docs/RELEASING.md": [r"^    echo "],
    "go/README.md": [r"pendratsoa@v", r"pendratsoa-go-"],
    "go/types.go": [r'the version of the library, as "'],
    "node/index.d.ts": [r"The version of the library, as `'"],
    "node/README.md": [r"pendratsoa-(?:reference-)?"],
    "node/package.json": [r'^  "version": "'],
    "python/README.md": [r"pendratsoa-"],
    "python/pendratsoa/_calls.py": [r'The version of the library, as "'],
    "python/pyproject.toml": [r'^version = "'],
    "ruby/README.md": [r"pendratsoa-(?:reference-)?"],
    "ruby/lib/pendratsoa/functions.rb": [r'The version of the library, as "'],
    "ruby/lib/pendratsoa/version.rb": [r'VERSION = "'],
    "rust/Cargo.toml": [r'^version = "'],
    "rust/README.md": [r"pendratsoa-(?:reference|rust)-"],
    "rust/tokio/Cargo.toml": [r'^version = "'],
    "rust/src/calls.rs": [r"The version of the library, as `"],
    "tests/ffi/names.rt.in": [r'writes\(Ok\(&b"(?=[^"]*"\[\.\.\]\), \|out\| journal_library_version)'],
}

NUMBER = r"\d+(?:\.\d+)+"


def library_version():
    """The version."""
    return (ROOT / "VERSION").read_text(encoding="utf-8").strip()


def versioned(text, places):
    """A text with the version at its places."""
    for place in places:
        text, count = re.subn(f"({place}){NUMBER}", rf"\g<1>{library_version()}", text, flags=re.M)
        if not count:
            raise ValueError(f"no version is after {place!r}")
    return text


def paths():
    return list(PLACES)


def files():
    return {path: versioned((ROOT / path).read_text(encoding="utf-8"), places) for path, places in PLACES.items()}
