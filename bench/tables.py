#!/usr/bin/env python3
"""Writes what runs of speed, programs, journals, messages and languages measured into the tables of
docs/PERFORMANCE.md:

    bench/tables.py FOLDER..

A folder is of a run, with speed.log, programs.log, journals.log, messages.log and languages.log, as releasing.sh leaves
them. Tables whose log no run has stay as they are. A rate is that of the run whose ratio is the middle one. Columns
that no run measures, as instructions, stay, and cells with a dash. It stops where a row of the page was not measured,
or not in each run.
"""
from __future__ import annotations

import collections
import collections.abc
import dataclasses
import itertools
import pathlib
import statistics
import sys

PAGE = pathlib.Path(__file__).resolve().parent.parent / "docs" / "PERFORMANCE.md"

# The cells of a line of a table.
Cells = list[str]

# What is written into a row: its columns, by the same row of each run, in the order of their ratios.
Fill = collections.abc.Callable[[list[Cells]], dict[int, str]]


class Unmeasured(Exception):
    """A row of the page that the runs do not have."""


@dataclasses.dataclass(frozen=True)
class Table:
    """A table of the page: the heading above it, the columns that name a row, on the page and in a run, and what fills
    the others. Where several rows of a run have a name: what the row begins with, or how many cells it has."""

    heading: str
    keys: tuple[int, ...]
    names: tuple[int, ...]
    fill: Fill
    log: str = "speed"
    begins: str = ""
    width: int | None = None


def cells_of(line: str) -> Cells:
    return [cell.strip() for cell in line.strip().strip("|").split("|")]


def plain(cells: Cells, columns: tuple[int, ...]) -> list[str]:
    """The names in some columns without their marks as code; what borrows from a slice has no chunks in a run."""
    return [cells[column].replace("`", "").replace("a slice", "-") for column in columns]


def middle(rows: list[Cells]) -> Cells:
    return rows[(len(rows) - 1) // 2]


def spread(rows: list[Cells], column: int) -> str:
    """A ratio of the middle run, with those of the others."""
    others = [row[column] for row in rows if row is not middle(rows)]
    return middle(rows)[column] + (f" ({', '.join(others)})" if others else "")


def stretch(rows: list[Cells], column: int) -> str:
    """The same with the least and the greatest one."""
    return f"{middle(rows)[column]} ({rows[0][column]} to {rows[-1][column]})"


def items(rows: list[Cells]) -> dict[int, str]:
    return {3: middle(rows)[3], 4: spread(rows, 5), 6: f"{middle(rows)[6]}; {middle(rows)[7]}"}


def frames(rows: list[Cells]) -> dict[int, str]:
    return {2: middle(rows)[3], 3: middle(rows)[5], 5: f"{middle(rows)[6]}; {middle(rows)[7]}"}


def comparisons(rows: list[Cells]) -> dict[int, str]:
    return {1: middle(rows)[3], 2: spread(rows, 5)}


def adversarial(rows: list[Cells]) -> dict[int, str]:
    return {1: middle(rows)[1], 2: middle(rows)[3]}


def calls(rows: list[Cells]) -> dict[int, str]:
    return {1: middle(rows)[1], 2: middle(rows)[2], 3: middle(rows)[3]}


def programs(rows: list[Cells]) -> dict[int, str]:
    return {2: f"{int(middle(rows)[3]):,}", 3: middle(rows)[4], 4: spread(rows, 6)}


def lines(rows: list[Cells]) -> dict[int, str]:
    return {1: middle(rows)[2], 2: middle(rows)[4], 3: stretch(rows, 6)}


def journals(rows: list[Cells]) -> dict[int, str]:
    return {
        1: f"{int(middle(rows)[1].removesuffix(' commands')):,}",
        **{column: middle(rows)[column] for column in (2, 3, 4, 5)},
        6: stretch(rows, 6),
    }


def nanoseconds(time: str) -> str:
    return f"{float(time) / 1000:.0f} k" if float(time) >= 10_000 else f"{float(time):.0f}"


def structs(rows: list[Cells]) -> dict[int, str]:
    ratios = (f"{float(cell):.0f}" if float(cell) >= 100 else cell for cell in middle(rows)[6:9])
    return {2: nanoseconds(middle(rows)[2]), 3: "; ".join(ratios)}


def fields(rows: list[Cells]) -> dict[int, str]:
    return {1: "; ".join(map(nanoseconds, middle(rows)[1:3])), 2: stretch(rows, 3)}


TABLES = (
    Table("Items of a stream", (0, 1, 2), (0, 1, 2), items),
    Table("Typed messages", (0, 1, 2), (0, 1, 2), items),
    Table("Frames written", (0, 1), (0, 1), frames),
    Table("Comparing commands", (0,), (1,), comparisons),
    Table("Adversarial messages", (0,), (0,), adversarial),
    Table("C calls", (0,), (0,), calls),
    Table("Streams dumped and listed", (0, 1), (0, 1), programs, log="programs"),
    Table("JSON read", (0,), (1,), lines, log="programs", begins="journal_make"),
    Table("Two journals compared", (0,), (0,), journals, log="journals"),
    Table("Structs of messages in C", (0, 1), (0, 1), structs, log="messages", width=9),
    Table("The iterator of fields", (0,), (0,), fields, log="messages", width=4),
)

# Where the row of a run has its ratio, by the number of its cells and its log.
RATIOS = {
    ("speed", 8): 5, ("speed", 4): 3, ("programs", 7): 6, ("journals", 9): 6, ("messages", 9): 6, ("messages", 4): 3,
}

# The heading of the table whose columns are kinds of work, and these.
SUSPENSIONS = "Suspensions"
WHATS = ("encode", "encode_into", "encode_spare", "encode_shared", "encode_held")

# The heading of the tables of other languages, how a run names these, their records, and the works of the second table.
OTHER = "Typed messages in other languages"
LANGUAGES = {"C": "c", "Rust": "rust", "Go": "go", "Python": "python", "Ruby": "ruby", "TypeScript": "node"}
RECORDS = ("SetStateCommand", "CallCommand", "CallCompletionNotification")
WORKS = ("items", "items-read", "replay", "frame", "to-json", "from-json")


def rows_of(folder: pathlib.Path, log: str) -> list[Cells]:
    """The rows that a run printed, without the heads of its tables."""
    rows = [cells_of(line) for line in (folder / f"{log}.log").read_text().splitlines() if line.startswith("| ")]
    return [row for row in rows if any(character.isdigit() for cell in row[1:] for character in cell)]


def ratio(log: str, row: Cells) -> float:
    """What runs are ordered by; of an adversarial message its ratio at the largest size."""
    if log == "speed" and len(row) == 8 and "," in row[3]:
        return float(row[3].split(", ")[-1])
    return float(row[RATIOS[log, len(row)]])


def measured(runs: list[pathlib.Path], table: Table, key: list[str]) -> list[Cells]:
    """The row of a name of each run, in the order of the ratios."""
    found = [row for run in runs for row in rows_of(run, table.log)
             if row[0].startswith(table.begins) and table.width in (None, len(row))
             and plain(row, table.names) == key]
    if len(found) != len(runs):
        raise Unmeasured(f"{table.heading}: {', '.join(key)}: in {len(found)} of {len(runs)} runs")
    return sorted(found, key=lambda row: ratio(table.log, row))


def filled(runs: list[pathlib.Path], table: Table, line: str) -> str:
    """A row of the page with what the runs have for it; one that begins with a dash has only what is counted."""
    cells = cells_of(line)
    if cells[len(table.keys)] == "–":
        return line
    for column, text in table.fill(measured(runs, table, plain(cells, table.keys))).items():
        if cells[column] != "–":
            cells[column] = text
    return f"| {' | '.join(cells)} |"


def suspension(runs: list[pathlib.Path], line: str) -> str:
    """A row of suspensions, with the middle ratio of each kind of work."""
    cells = cells_of(line)
    for column, what in enumerate(WHATS, 1):
        found = [row[5] for run in runs for row in rows_of(run, "speed") if row[:2] == [cells[0], what]]
        if len(found) != len(runs):
            raise Unmeasured(f"{cells[0]}, {what}: in {len(found)} of {len(runs)} runs")
        cells[column] = f"{statistics.median_low(map(float, found)):.2f}"
    return f"| {' | '.join(cells)} |"


def measured_in(runs: list[pathlib.Path], language: str) -> dict[tuple[str, str], tuple[float, float]]:
    """The microseconds, the least ones, and the middle ratio of each record and work of a language."""
    found = collections.defaultdict(list)
    for run in runs:
        for line in (run / "languages.log").read_text().splitlines():
            words = line.split()
            if len(words) == 6 and words[0] == LANGUAGES[language]:
                found[words[1].removesuffix("Message"), words[2]].append((float(words[3]), float(words[5])))
    few = [key for key, rows in found.items() if len(rows) != len(runs)]
    if few or not found:
        raise Unmeasured(f"{language}: {', '.join(few[0]) if few else 'nothing'}: not in each of {len(runs)} runs")
    return {key: (min(times), statistics.median_low(ratios)) for key, rows in found.items()
            for times, ratios in [zip(*rows)]}


def microseconds(time: float) -> str:
    return f"{time:.2f}" if time >= 0.1 else f"{time:.3f}"


def records(runs: list[pathlib.Path], line: str) -> str:
    """A row of the table of records: a cell for each record decoded, and then for each encoded."""
    cells = cells_of(line)
    found = measured_in(runs, cells[0])
    for column, (work, record) in enumerate(itertools.product(("decode", "encode"), RECORDS), 1):
        time, ratio = found[record, work]
        cells[column] = f"{microseconds(time)}: {ratio:.2f}"
    return f"| {' | '.join(cells)} |"


def streams(runs: list[pathlib.Path], line: str) -> str:
    """A row of the table of streams: a cell for each work, with the ratios of all records that it has."""
    cells = cells_of(line)
    found = measured_in(runs, cells[0])
    for column, work in enumerate(WORKS, 1):
        if cells[column] == "–":
            continue
        each = [found[record, work] for record in RECORDS if (record, work) in found]
        ratios = (f"{ratio:.1f}" if ratio < 10 else f"{ratio:.0f}" for _, ratio in each)
        cells[column] = f"{microseconds(each[0][0])}: {', '.join(ratios)}"
    return f"| {' | '.join(cells)} |"


def have(runs: list[pathlib.Path], log: str) -> bool:
    """Whether the runs have a log."""
    return any((run / f"{log}.log").exists() for run in runs)


def line_of(runs: list[pathlib.Path], place: tuple[str, int], line: str) -> str:
    """A row of the page, of the first or a later table below a heading."""
    table = {(table.heading, 1): table for table in TABLES}.get(place)
    if table is not None and have(runs, table.log):
        return filled(runs, table, line)
    if place == (SUSPENSIONS, 1) and have(runs, "speed"):
        return suspension(runs, line)
    if place in ((OTHER, 1), (OTHER, 2)) and have(runs, "languages"):
        return (records if place[1] == 1 else streams)(runs, line)
    return line


def written(runs: list[pathlib.Path], page: list[str]) -> list[str]:
    """The lines of the page, with the rows of its tables filled."""
    made, heading, table, row = [], "", 0, 0
    for line in page:
        if line.startswith("## "):
            heading, table = line.removeprefix("## "), 0
        row = row + 1 if line.startswith("|") else 0
        table += row == 1
        # the first two rows are its head
        made.append(line_of(runs, (heading, table), line) if row > 2 else line)
    return made


def main(words: list[str]) -> int:
    if not words or words[0].startswith("-"):
        print(__doc__.strip(), file=sys.stdout if words == ["--help"] else sys.stderr)
        return 0 if words == ["--help"] else 2
    try:
        made = written([pathlib.Path(word) for word in words], PAGE.read_text().splitlines())
    except (OSError, Unmeasured) as error:
        print(f"tables.py: {error}", file=sys.stderr)
        return 1
    PAGE.write_text("\n".join(made) + "\n")
    return 0


if __name__ == "__main__":
    sys.exit(main(sys.argv[1:]))
