#!/usr/bin/env python3
"""The reference pages: each language's are made, begin with their example, and every public name has a sentence.

A language whose tool is absent is not run. The examples are those of the packages' own pages, which the checks of the
packages run; that of Rust is the one of its first comment, and that of Rattle is a crate. Every link of all pages that
is not to another host leads to a file of the archive, and to an anchor of it.
"""
from __future__ import annotations

import functools
import html
import os
import pathlib
import re
import sys
import urllib.parse

import checks

sys.path.insert(0, str(checks.ROOT / "scripts" / "reference"))

import languages  # noqa: E402

# The first page of a language, and the page with its example, with the language of the block.
EXAMPLES = {
    "rattle": ("index.html", "crates/readme_example/src/main.rt", ""),
    "c": ("index.html", "docs/C.md", "c"),
    "python": ("index.html", "python/README.md", "python"),
    "rust": ("pendratsoa/index.html", "rust/src/lib.rs", ""),
    "go": ("index.html", "go/README.md", "go"),
    "ruby": ("index.html", "ruby/README.md", "ruby"),
    "typescript": ("index.html", "node/README.md", "ts"),
}

# A script, whose tag stays and whose text is left out; a tag; and a link of a tag, or an anchor.
SCRIPT = re.compile(r"(<script\b[^>]*>).*?</script>", re.DOTALL)
TAG = re.compile(r"""<[a-z](?:[^>"']|"[^"]*"|'[^']*')*>""", re.IGNORECASE)
ATTRIBUTE = re.compile(r"""\s(href|src|id|name)=(?:"([^"]*)"|'([^']*)'|([^\s"'>]+))""")

# A link that leads out of the archive, and where a page leads by itself.
ELSEWHERE = re.compile(r"(?:https?|mailto|javascript|data):")
MOVED = re.compile(r'<meta http-equiv="refresh" content="0;URL=([^"]*)">')


def shown(page: pathlib.Path) -> str:
    """The text of a page, without its tags and blanks."""
    body = page.read_text(encoding="utf-8").partition("<body")[2]
    return re.sub(r"\s+", "", html.unescape(re.sub(r"<[^>]*>", "", body)))


def example_of(language: str) -> str:
    """The example with which the page of a language begins, without blanks."""
    _, page, block = EXAMPLES[language]
    text = pathlib.Path(page).read_text(encoding="utf-8")
    if language == "rust":
        lines = re.search(r"^//! ```\n(.*?)^//! ```$", text, re.MULTILINE | re.DOTALL)
        # what begins with # is run and not shown
        text = re.sub(r"^//! ?(#.*)?", "", lines[1] if lines else "", flags=re.MULTILINE)
    elif block:
        text = languages.example(page, block)
    return re.sub(r"\s+", "", text)


@functools.lru_cache(maxsize=None)
def links_and_anchors(page: pathlib.Path) -> tuple[set[str], set[str]]:
    """What a page leads to or shows, and its anchors; those of the page to which one leads by itself are its own."""
    text = page.read_text(encoding="utf-8")
    targets: set[str] = set()
    anchors = {"", "top"}
    for tag in TAG.findall(SCRIPT.sub(r"\1", text)):
        for name, *value in ATTRIBUTE.findall(tag):
            (targets if name in ("href", "src") else anchors).add(html.unescape("".join(value)))
    moved = MOVED.search(text)
    there = pathlib.Path(os.path.normpath(page.parent / moved[1])) if moved else None
    return targets, anchors | (links_and_anchors(there)[1] if there and there.is_file() else set())


def is_dead(page: pathlib.Path, target: str, out: pathlib.Path) -> bool:
    """Whether a link of a page leads to no file below a folder, or to an anchor that this file does not have."""
    path, _, anchor = target.partition("#")
    file = urllib.parse.unquote(path.partition("?")[0])
    there = pathlib.Path(os.path.normpath(page.parent / file)) if file else page
    if not there.is_relative_to(out) or not there.is_file():
        return True
    if there.suffix != ".html":
        return False
    # a script of rustdoc's marks lines of a source, the first of which is an anchor
    lines = re.fullmatch(r"(\d+)-\d+", anchor)
    return not {lines[1] if lines else anchor, urllib.parse.unquote(anchor)} & links_and_anchors(there)[1]


def dead_links(out: pathlib.Path) -> list[str]:
    """The links of all pages below a folder that lead to no file below it, or to no anchor of that."""
    return [
        f"{page.relative_to(out)}: {target}"
        for page in sorted(out.rglob("*.html"))
        for target in sorted(links_and_anchors(page)[0])
        if not ELSEWHERE.match(target) and is_dead(page, target, out)
    ]


def links(check: checks.Check, out: pathlib.Path) -> None:
    """Every link of the pages below a folder leads to a file below it, and to an anchor of that if it names one."""
    found = dead_links(out)
    has_pages = any(out.rglob("*.html"))
    check.case("the links of all pages", has_pages and not found, found[:checks.LINES])


# Links of a page with an anchor, and lines of a source; next to it is a page that leads there by itself.
PLANTED = '<a id="there" href=%s>x</a><a id=7>7</a>'
LIVE = ("#there", "page.html?a=b", "page.html#there", "moved.html#there", "#7-9", "style.css", "https://example.org/a")
DEAD = ("#none", "none.html", "moved.html#none", "#8-9", "none.css", ".", "../pages", "tokio::none", "/page.html")


def planted(check: checks.Check) -> None:
    """A link that leads to nothing is found, in whatever quotes, and no other one is."""
    folder = check.work / "planted"
    folder.mkdir()
    (folder / "style.css").touch()
    (folder / "moved.html").write_text('<meta http-equiv="refresh" content="0;URL=page.html">')
    for target in (*LIVE, *DEAD):
        for quote in ('"', "'", ""):
            (folder / "page.html").write_text(PLANTED % f"{quote}{target}{quote}")
            links_and_anchors.cache_clear()
            is_found = bool(dead_links(folder))
            check.case(f"{quote}{target}{quote}", is_found == (target in DEAD))


def main(check: checks.Check) -> None:
    planted(check)
    out = check.work / "pages"
    made = []
    for language in languages.LANGUAGES:
        try:
            without = languages.made(language, out)
        except languages.NotMade as why:
            check.left_out(f"the pages of {language}", str(why))
            continue
        made.append(language)
        for name in without:
            check.case(f"{language}: {name} has no sentence", False)
        check.case(f"{language}: every public name has a sentence", not without)
        # before anything else but the title and what a page has at its side
        example = example_of(language)
        at = shown(out / language / EXAMPLES[language][0]).find(example)
        check.case(f"{language}: the first page begins with its example", bool(example) and 0 <= at < 2000, at)
    languages.repository(out)
    languages.front(out, made)
    front, _ = links_and_anchors(out / "index.html")
    for place in (*(languages.LANGUAGES[language][2] for language in made), languages.EXAMPLES_PAGE):
        check.case(f"the front page leads to {place}", place in front)
    links(check, out)


if __name__ == "__main__":
    checks.perform(main)
