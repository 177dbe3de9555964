#!/usr/bin/env python3
"""is_part.py FILE OTHER: whether the lines of a file are lines of another one, which may be indented."""
import pathlib
import sys
import textwrap

part, whole = (pathlib.Path(name).read_text(encoding="utf-8") for name in sys.argv[1:])
lines = textwrap.dedent(part).strip().splitlines()
others = whole.splitlines()
places = range(len(others) - len(lines) + 1) if lines else ()
sys.exit(lines not in (textwrap.dedent("\n".join(others[at : at + len(lines)])).splitlines() for at in places))
