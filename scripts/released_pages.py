#!/usr/bin/env python3
"""The pages of a release: those that the archive of reference pages has, and the README of a package, which names them
there.

A package holds what is in its folder. Its README links to other pages and programs of the repository too, which no
package has. In a release the archive has them, and all examples, at their paths in the repository, pages in Markdown
as HTML. The README in the package has their paths in the place of such links.
"""
from __future__ import annotations

import os
import pathlib
import re

ROOT = pathlib.Path(__file__).resolve().parent.parent
VERSION = (ROOT / "VERSION").read_text().strip()
ARCHIVE = f"pendratsoa-reference-{VERSION}.tar.gz"

# The folders of the packages, each of which has a README.
PACKAGES = ("python", "rust", "go", "ruby", "node")

# A link to a file: not within the page, and to no other host.
LINK = re.compile(r"\[([^\]]*)\]\(([^)#:\s]+)(?:#[^)\s]*)?\)")

SECTION = f"""
## Pages

The pages and programs that this page names by their paths, as `docs/C.html`, are in the archive
`{ARCHIVE}` of the release.
"""


def target(page: str, link: str) -> str:
    """The path in the repository of what a page links to; code, as `As[T](item)`, leads to nothing that is there."""
    return os.path.normpath(os.path.join(os.path.dirname(page), link))


def links(page: str, text: str) -> set[str]:
    """What a page links to, of what is there."""
    found = {target(page, link) for _, link in LINK.findall(text)}
    return {path for path in found if (ROOT / path).exists()}


def named() -> list[str]:
    """What the archive has: the pages of docs, the examples, and what the packages' READMEs link to outside of the
    packages."""
    found = {f"docs/{page.name}" for page in (ROOT / "docs").glob("*.md")}
    examples = (str(path.relative_to(ROOT)) for path in (ROOT / "examples").rglob("*") if path.is_file())
    found |= {path for path in examples if "__pycache__" not in path}
    for folder in PACKAGES:
        for page in sorted((ROOT / folder).rglob("README.md")):
            path = str(page.relative_to(ROOT))
            found |= {each for each in links(path, page.read_text()) if not is_below(each, folder)}
    return sorted(found)


def is_below(path: str, folder: str) -> bool:
    return path == folder or path.startswith(f"{folder}/")


def archived(path: str) -> str:
    """The path in the archive of what has a path in the repository."""
    return f"{path.removesuffix('.md')}.html" if path.endswith(".md") else path


def released(folder: str, page: str, text: str) -> str:
    """The page of a package as a release has it: what is not in its folder is named by the path in the archive."""

    def path_of(link: re.Match[str]) -> str:
        path = target(page, link[2])
        if is_below(path, folder) or not (ROOT / path).exists():
            return link[0]
        name = f"`{archived(path)}`"
        # a text that is the name of the page says no more
        of_page = (path, os.path.basename(path), pathlib.Path(path).stem, os.path.dirname(path))
        return name if link[1] in of_page else f"{link[1]} ({name})"

    changed = LINK.sub(path_of, text)
    is_said = changed == text or SECTION.splitlines()[1] in text.splitlines()
    return changed if is_said else changed + SECTION
