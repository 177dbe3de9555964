"""A page in Markdown as HTML, as far as the pages and the comments of this repository use it: headings with the anchors
that GitHub gives them, paragraphs, lists, tables, blocks of code, links, code and bold text."""
from __future__ import annotations

import collections.abc
import html
import re


def anchor(heading: str) -> str:
    """The anchor of a heading, as GitHub names it."""
    return re.sub(r"[^a-z0-9_ -]", "", heading.lower()).replace(" ", "-")


# Where a link of a page leads, by what the page has for it; None where that is nowhere.
To = collections.abc.Callable[[str], "str | None"]


def nowhere(_: str) -> str | None:
    """A page of which no other one is there has only the texts of its links to them."""
    return None


def inline(text: str, to: To = nowhere) -> str:
    """A text within a paragraph."""
    parts = text.split("`")
    for number, part in enumerate(parts):
        if number % 2 and number < len(parts) - 1:
            parts[number] = f"<code>{html.escape(part)}</code>"
        else:
            part = html.escape(part, quote=False)
            part = re.sub(r"\*\*(.+?)\*\*", r"<b>\1</b>", part)
            parts[number] = part
    joined = "".join(parts)
    # a link within the page is one, and one that leads nowhere is its text
    joined = re.sub(r"\[([^\]]+)\]\((#[^)]*)\)", r'<a href="\2">\1</a>', joined)

    def linked(link: re.Match[str]) -> str:
        found = to(html.unescape(link[2]))
        return link[1] if found is None else f'<a href="{html.escape(found)}">{link[1]}</a>'

    return re.sub(r"\[([^\]]+)\]\(([^)]*)\)", linked, joined)


def cells(row: str) -> list[str]:
    return [cell.strip() for cell in re.split(r"(?<!\\)\|", row.strip().strip("|"))]


def table(rows: list[str], ids: list[str] | None = None, to: To = nowhere) -> str:
    """A table; its rows may have anchors."""
    head, _, *others = rows
    shown = ["<tr>" + "".join(f"<th>{inline(cell, to)}</th>" for cell in cells(head)) + "</tr>"]
    for number, row in enumerate(others):
        of = f' id="{ids[number]}"' if ids else ""
        shown.append(f"<tr{of}>" + "".join(f"<td>{inline(cell, to)}</td>" for cell in cells(row)) + "</tr>")
    return "<table>\n" + "\n".join(shown) + "\n</table>\n"


def converted(text: str, to: To = nowhere) -> str:
    """A page, or the text of a comment."""
    out: list[str] = []
    lines = text.splitlines()
    number = 0

    def taken(pattern: str) -> list[str]:
        """The lines from here on that fit."""
        nonlocal number
        found = []
        while number < len(lines) and re.match(pattern, lines[number]):
            found.append(lines[number])
            number += 1
        return found

    while number < len(lines):
        line = lines[number]
        heading = re.match(r"(#+) (.*)", line)
        if not line.strip():
            number += 1
        elif line.strip().startswith("```"):
            number += 1
            code = taken(r"(?! *```)")
            number += 1
            out.append(f"<pre>{html.escape(chr(10).join(code))}</pre>")
        elif line.startswith("    "):
            code = taken(r"    |$")
            out.append(f"<pre>{html.escape(chr(10).join(each[4:] for each in code).rstrip())}</pre>")
        elif heading:
            number += 1
            level = len(heading[1])
            out.append(f'<h{level} id="{anchor(heading[2])}">{inline(heading[2], to)}</h{level}>')
        elif line.startswith("|"):
            out.append(table(taken(r"\|"), to=to))
        elif re.match(r"([-*]|\d+\.) ", line):
            items: list[str] = []
            while number < len(lines) and lines[number].strip() and not re.match(r"\||#|```", lines[number]):
                item = re.match(r"(?:[-*]|\d+\.) (.*)", lines[number])
                if item:
                    items.append(item[1])
                else:
                    items[-1] += " " + lines[number].strip()
                number += 1
            out.append("<ul>" + "".join(f"<li>{inline(item, to)}</li>" for item in items) + "</ul>")
        else:
            paragraph = [line]
            number += 1
            while number < len(lines) and lines[number].strip() and not re.match(r"\||#|```|[-*] ", lines[number]):
                paragraph.append(lines[number])
                number += 1
            out.append(f"<p>{inline(' '.join(paragraph), to)}</p>")
    return "\n".join(out) + "\n"
