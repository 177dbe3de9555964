"""Mutants of a crate that are tried together, in one check of it.

A function's proof cites only the contracts of the functions that it calls, never their code. So a check over several
mutated functions tells of each whether its own goals are proved; a caller of one that is refused waits for it. Two
mutants of one function, or of one cycle of calls, take turns. What is not decided so is left to be tried singly: an
edit outside functions, one that is let through, and all of a check in which a function fails that no mutant changes.
"""
from __future__ import annotations

import collections.abc
import dataclasses
import pathlib
import re

from functions import Function, Sources

# What the prover says of a function, of an error in a file of its proof, of a goal that is not proved, and of a name
# that it does not know.
VERDICT = re.compile(r"fn \w+::(\S+): (.*)")
ERROR = re.compile(r"\./proofs/(\S+)/\w+\.antt:\d+:\d+: error: ")
GOAL = re.compile(r"note: src/\S+:\d+:\d+: it is not proved that ")
UNKNOWN = re.compile(r"^rattle: error: `\w+` has no function `(\S+)`", re.MULTILINE)

# An error that says nothing of a contract: a proof names what an edit took away, or what is not proved.
NAMES = re.compile(r"error: .*(has no field|is not in scope|has no `|was not admitted)")

# What a check came to for a function.
REFUSED, PROVED, OPEN = "refused", "proved", "open"


@dataclasses.dataclass(frozen=True)
class Mutant:
    """An edit: its name, and for each change the file, what stands there and what comes in its place."""

    name: str
    changes: tuple[tuple[str, str, str], ...]

    def function(self, sources: Sources) -> Function | None:
        """The function that it changes, if it changes nothing else."""
        changed = {self.function_of(sources, file, old) for file, old, _ in self.changes}
        return changed.pop() if len(changed) == 1 else None

    def function_of(self, sources: Sources, file: str, old: str) -> Function | None:
        path = pathlib.PurePath(file)
        return sources.function_at(path.relative_to("src"), old) if path.parts[:1] == ("src",) else None


# A mutant and the function that it changes.
Changed = tuple[Mutant, Function]

# A check of a crate with these arguments: what it prints.
Check = collections.abc.Callable[[list[str]], str]


def read_mutant(file: pathlib.Path) -> Mutant:
    """The mutant of a file, in the format of the toolchain's edits that must fail."""
    changes, path, old = [], "", ""
    for line in file.read_text(encoding="utf-8").splitlines():
        word, _, text = line.partition(":")
        text = text.removeprefix(" ")
        if word == "file":
            path = text.strip()
        elif word == "old":
            old = text
        elif word == "new":
            changes.append((path, old, text))
    return Mutant(file.stem, tuple(changes))


class Report:
    """What a check says of each function, by its name below the crate."""

    def __init__(self, log: str):
        # What it came to, and why.
        self.results: dict[tuple[str, ...], tuple[str, str]] = {}
        # Whether the prover came to its end.
        self.is_whole = False
        # The first error in the proof of each cycle of calls, by its name.
        self.of_cycles: dict[str, str] = {}
        errors: dict[tuple[str, ...], str] = {}
        goal = ""
        for line in log.splitlines():
            if (error := ERROR.match(line)) and not NAMES.search(line):
                words = tuple(error[1].split("/"))
                errors.setdefault(words, line)
                if words[-1].startswith("+"):
                    self.of_cycles.setdefault(words[-1][1:], line)
            elif GOAL.match(line):
                goal = goal or line
            elif verdict := VERDICT.match(line):
                words = tuple(verdict[1].split("::"))
                self.results[words] = result_of(verdict[2], errors.get(words, ""), goal)
                goal = ""
            self.is_whole |= line.startswith("only=")

    def result(self, functions: collections.abc.Collection[Function]) -> tuple[str, str]:
        """What is said of functions that have one proof, and of the closures in them."""
        said = [result for words, result in self.results.items() if any(it.is_named(words) for it in functions)]
        refused = [result for result in said if result[0] == REFUSED]
        # the functions of a cycle have one proof, in which at most one mutant is planted at a time
        refused += [(REFUSED, self.of_cycles[it.cycle]) for it in functions if it.cycle in self.of_cycles]
        return (refused or [(PROVED if said and all(how == PROVED for how, _ in said) else OPEN, "")])[0]

    def has_others(self, functions: collections.abc.Collection[Function]) -> bool:
        """Whether a function fails by itself that is none of these."""
        failing = [words for words, (how, _) in self.results.items() if how == REFUSED]
        is_other = any(not any(function.is_named(words) for function in functions) for words in failing)
        return is_other or not self.of_cycles.keys() <= {function.cycle for function in functions}


def result_of(verdict: str, error: str, goal: str) -> tuple[str, str]:
    """What a function's line says, with the first error in its proof and its first goal that is not proved."""
    if verdict == "proved":
        return PROVED, ""
    if error or "did not prove" in verdict:
        return REFUSED, goal or error or verdict
    return OPEN, ""


def turns_of(mutants: collections.abc.Iterable[Changed]) -> list[list[Changed]]:
    """The mutants in turns, so that no two of a turn change functions that have one proof."""
    turns: list[list[Changed]] = []
    counts: dict[object, int] = {}
    for mutant, function in mutants:
        turn = counts.get(function.proof, 0)
        counts[function.proof] = turn + 1
        turns += [[]] if turn == len(turns) else []
        turns[turn].append((mutant, function))
    return turns


def try_together(folder: pathlib.Path, files: collections.abc.Iterable[pathlib.Path], check: Check) -> dict[str, str]:
    """Tries the mutants of these files on the crate in a folder: the names of those that are refused, and why."""
    sources = Sources.of(folder / "src")
    changed = [(mutant, function) for mutant in map(read_mutant, files) if (function := mutant.function(sources))]
    trial = Trial(folder, sources, check)
    for turn in turns_of(changed):
        trial.try_turn(turn)
    # those that waited for a function that is refused, without its mutant
    waiting, trial.waiting = trial.waiting, []
    for turn in turns_of(waiting):
        trial.try_turn(turn)
    return trial.refused


class Trial:
    """Mutants that are tried on a crate."""

    def __init__(self, folder: pathlib.Path, sources: Sources, check: Check):
        self.folder = folder
        self.sources = sources
        self.check = check
        self.refused: dict[str, str] = {}
        self.waiting: list[Changed] = []

    def try_turn(self, turn: list[Changed]) -> None:
        """Tries mutants of different functions in one check."""
        log = self.checked(turn)
        report = Report(log)
        if not report.is_whole:
            for part in parts(turn, log):
                self.try_turn(part)
            return
        proved = [self.sources.sharing_proof(function) for _, function in turn]
        if not report.has_others([function for functions in proved for function in functions]):
            for pair, functions in zip(turn, proved):
                how, why = report.result(functions)
                if how == REFUSED:
                    self.refused[pair[0].name] = why
                elif how == OPEN:
                    self.waiting.append(pair)

    def checked(self, turn: list[Changed]) -> str:
        """What a check of these functions prints with the mutants in the crate, which is as before afterwards."""
        kept: dict[pathlib.Path, str] = {}
        try:
            for mutant, _ in turn:
                for file, old, new in mutant.changes:
                    path = self.folder / file
                    text = path.read_text(encoding="utf-8")
                    kept.setdefault(path, text)
                    path.write_text(text.replace(old, new), encoding="utf-8")
            return self.check([word for _, function in turn for word in ("--only", "::".join(function.path))])
        finally:
            for path, text in kept.items():
                path.write_text(text, encoding="utf-8")


def parts(turn: list[Changed], log: str) -> list[list[Changed]]:
    """What to try where the prover read nothing: all but the function of an unknown name, or else each half."""
    unknown = UNKNOWN.search(log)
    known = [pair for pair in turn if not unknown or "::".join(pair[1].path) != unknown[1]]
    half = len(turn) // 2
    found = [known] if len(known) < len(turn) else [turn[:half], turn[half:]] if half else []
    return [part for part in found if part]
