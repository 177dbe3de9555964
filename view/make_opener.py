#!/usr/bin/env python3
"""Writes the page that opens journals, journal_view.html: view/make_opener.py MODULE.wasm PAGE

The page is one file. It has the module inside, and the page of journal view, which it turns into once a worker has
decoded the streams that were dropped on it or chosen. It requests nothing.
"""
import base64
import json
import pathlib
import re
import string
import sys

import make_page
from make_page import HERE, ROOT, content_hash, embedded

# What of the package for Node the worker has, in the order in which they take from each other.
LIBRARY = ("declared", "module_memory", "module_calls")
NAMES = (
    "CALLS, ERRORS, ITEM, ITEM_NUMBERS, LIST_KINDS, LIST_NUMBERS, NUMBERING_DIRECTIONS, RENUMBERING_NUMBERS, REPLAY, "
    "REPLAY_NUMBERS, VERDICT, VERDICT_NUMBERS, useInstances"
)

# The page's Content-Security-Policy: the two scripts, a worker of its own text, the module, and nothing else.
POLICY = (
    "default-src 'none'; script-src {scripts} 'wasm-unsafe-eval'; style-src {style}; worker-src blob:; "
    "base-uri 'none'; form-action 'none'; require-trusted-types-for 'script'; trusted-types journal-view"
)


def read(name):
    return (HERE / name).read_text(encoding="utf-8")


def library():
    """The calls over the module, of the package for Node, as a part of a script that is not a module."""
    text = "\n".join((ROOT / "node/lib" / f"{name}.js").read_text(encoding="utf-8") for name in LIBRARY)
    text = re.sub(r"^import [^;]*;\n", "", text, flags=re.M)
    text = re.sub(r"^export (?=const|let|function)", "", text, flags=re.M)
    return f"const {{ {NAMES} }} = (() => {{\n{text}\nreturn {{ {NAMES} }};\n}})();\n"


def body_of_page():
    """The body of the page of journal view, up to its data."""
    text = read("page.html")
    start, end = text.index("<body>\n") + len("<body>\n"), text.index('<script type="application/json" id="about">')
    return text[start:end].replace("$title", "")


def versions():
    described = json.loads((ROOT / "proto/calls.json").read_text(encoding="utf-8"))
    return described["versions"]


def page(module):
    """The page's text."""
    script = "\n".join(read(f"script/{name}.js") for name in make_page.SCRIPTS)
    style = read("page.css") + read("opener/opener.css")
    opener = read("opener/opener.js")
    protocol = {"versions": versions(), **json.loads(read("protocol.json"))}
    return string.Template(read("opener/opener.html")).substitute(
        policy=POLICY.format(scripts=f"{content_hash(opener)} {content_hash(script)}", style=content_hash(style)),
        style=style,
        page=body_of_page(),
        script=script,
        worker='"use strict";\n' + library() + read("opener/worker.js"),
        module=base64.b64encode(module).decode(),
        protocol=embedded(json.dumps(protocol, separators=(",", ":"))),
        opener=opener,
    )


def main(words):
    if len(words) != 2:
        print(__doc__.strip(), file=sys.stderr)
        return 1
    module, target = map(pathlib.Path, words)
    target.write_text(page(module.read_bytes()), encoding="utf-8", newline="\n")
    return 0


if __name__ == "__main__":
    sys.exit(main(sys.argv[1:]))
