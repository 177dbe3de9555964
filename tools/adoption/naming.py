"""How names and kinds of two files are compared."""
import difflib
import re
import textwrap


def plain(name):
    """A name without what differs between files: its case, underscores, and the word Message at its end."""
    return re.sub(r"message$", "", name.replace("_", "").lower())


def shape(field):
    """What a field is, as the language has it."""
    return f"{field.label} {field.type_name or field.kind}".strip()


def similar(name, known):
    """What is said behind a name that is nowhere: the names that it may have meant."""
    near = difflib.get_close_matches(name, known, 3, 0.5)
    return f"; similar names are {', '.join(near)}" if near else ""


def commented(text, other, indent=""):
    """The lines of a comment with a text, or with another one where that is empty."""
    return [f"{indent}// {line}" for line in textwrap.wrap(text or other, 110)]
