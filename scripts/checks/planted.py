#!/usr/bin/env python3
"""How mutants are tried together: which function each changes, and what the prover's lines say of it. And which of them
are left out, since they were refused over the same sources. And that a check has failed that does not end, or of which
a command fails and counts no failure, or counts nothing.

It needs no prover: what a check prints is given.
"""
from __future__ import annotations

import collections.abc
import contextlib
import io
import os
import pathlib
import re
import select
import subprocess
import tempfile
import textwrap
import unittest
import unittest.mock

import checks  # it finds the modules of scripts/
import check
import crates
import functions
import mutants
import tally
import together

LIB = pathlib.PurePath("lib.rt")
POINT = pathlib.PurePath("shapes/point.rt")
LISTS = pathlib.PurePath("lists.rt")

SOURCES = functions.Sources(
    {
        LIB: """\
mod lists;
mod shapes;

/// The first.
pub fn first(many: &[u8]) -> u8
    ensures { result ≡ record {
      one = 1;
    } }
{
    one()
}

const ONE: u8 = 1;

fn nothing() {}

fn no_lines<T>(
    many: &[T],
) -> () {}

fn one() -> u8 {
    ONE
}

#[cycle(parity)]
fn even(n: u8) -> bool {
    odd(n - 1)
}

#[cycle(parity)]
fn odd(n: u8) -> bool {
    even(n - 1)
}
""",
        POINT: """\
pub struct Point<'a> {
    x: &'a u8,
}

impl<'a> Point<'a> {
    pub fn x(&self) -> u8 {
        self.of_x().map(|x| x + 2)
    }
}

impl<'a, R: Read + Copy> From<R> for Point<'a> {
    fn from(reader: R) -> Point<'a> {
        reader.next()
    }
}

pub trait Shape {
    fn size(&self) -> u8
        requires { size self.now ≤ 3 };

    fn twice(&self) -> u8 {
        2 * self.size()
    }
}
""",
        LISTS: """\
use crate::shapes::point::Point;

impl Point<'_> {
    fn of_list() -> u8 {
        7
    }
}

impl Extract for Vec<(String, u16)> {
    fn extract(&self) -> u8 {
        8
    }
}

impl fmt::Display
    for Point<'_>
{
    fn fmt(&self) -> u8 {
        9
    }
}
""",
    }
)

# What the prover prints of a mutated function that fails, one that waits, one whose goal is in a proof file, one with a
# closure, and two in a cycle of calls.
LOG = """\
./proofs/kept/Answers.antt:7:5: error: `returns`: expected type `◌≡◌`
./proofs/named/Answers.antt:7:5: error: `returns`: `c.gone` is not in scope
./proofs/lists/+parity/Answers.antt:7:5: error: `even-returns-clause-ok`: computed as far as they go, the two differ
struct a::kept::Kept: proved
note: src/place.rt:204:1: it is not proved that what the function ensures holds when it returns (`returns-in-Hex`)
note: a goal may be false even if its line does not say so
fn a::fails: no proof: expected answers in ./proofs/fails/Answers.antt; `search` did not prove `returns-in-Hex`
fn a::waits: no proof: it calls `a::fails`, which is not proved
fn a::kept: not proved; it calls `a::fails`, which is not proved
fn a::named: not proved
fn a::holds: proved
fn a::fn::holds::map: proved
fn a::fn::bad::map: no proof: `search` did not prove `returns`
fn a::bad: no proof: it calls `a::fn::bad::map`, which is not proved
fn a::even: not proved
fn a::odd: not proved
only=7 proved=1
"""


def function(*path: str) -> functions.Function:
    """A function of the crate's root, or a method of a type there."""
    return functions.Function(0, 0, (), "".join(path[:-1]), path[-1], "")


class FunctionsTest(unittest.TestCase):
    def path_at(self, file: pathlib.PurePath, text: str) -> str | None:
        found = SOURCES.function_at(file, text)
        return "::".join(found.path) if found else None

    def test_functions(self) -> None:
        self.assertEqual(self.path_at(LIB, "    one()"), "first")
        self.assertEqual(self.path_at(LIB, "one = 1;"), "first")
        self.assertEqual(self.path_at(LIB, "    ONE"), "one")
        self.assertEqual(self.path_at(LIB, "nothing"), "nothing")
        self.assertEqual(self.path_at(LIB, ") -> () {}"), "no_lines")
        self.assertIsNone(self.path_at(LIB, "const ONE"), "a constant")
        self.assertIsNone(self.path_at(LIB, "n - 1"), "a text that is there twice")
        self.assertIsNone(self.path_at(pathlib.PurePath("gone.rt"), "n"), "another file")

    def test_methods(self) -> None:
        self.assertEqual(self.path_at(POINT, "x + 2"), "shapes::point::Point::x")
        self.assertEqual(self.path_at(POINT, "reader.next()"), "shapes::point::PointFrom::from")
        self.assertEqual(self.path_at(POINT, "2 * self"), "shapes::point::Shape::twice")
        self.assertEqual(self.path_at(POINT, "≤ 3"), "shapes::point::Shape::size")
        self.assertEqual(self.path_at(LISTS, "7"), "shapes::point::Point::of_list", "by the module of the type")
        self.assertEqual(self.path_at(LISTS, "    8"), "lists::VecTuple2StringU16Extract::extract")
        self.assertEqual(self.path_at(LISTS, "9"), "lists::PointDisplay::fmt")

    def test_closure(self) -> None:
        x = SOURCES.function_at(POINT, "x + 2")
        assert x
        self.assertTrue(x.is_named(("shapes", "point", "fn", "Point", "x", "map")))
        self.assertFalse(x.is_named(("shapes", "point", "fn", "Point", "y", "map")))

    def test_cycle(self) -> None:
        pair = [SOURCES.function_at(LIB, text) for text in ("    odd(n - 1)", "    even(n - 1)")]
        self.assertEqual([found and found.proof for found in pair], ["parity", "parity"])
        self.assertEqual([it.name for it in SOURCES.sharing_proof(pair[0] or function("even"))], ["even", "odd"])
        one = SOURCES.function_at(LIB, "    ONE")
        self.assertEqual([it.name for it in SOURCES.sharing_proof(one or function("two"))], ["one"])


class ReportTest(unittest.TestCase):
    def test_results(self) -> None:
        report = together.Report(LOG)
        self.assertTrue(report.is_whole)
        found = {name: report.result([function(name)]) for name in ("fails", "waits", "kept", "named", "holds", "bad")}
        self.assertEqual({name: how for name, (how, _) in found.items()}, {
            "fails": "refused", "waits": "open", "kept": "refused", "named": "open", "holds": "proved",
            "bad": "refused",
        })
        self.assertIn("src/place.rt:204:1", found["fails"][1])
        self.assertIn("./proofs/kept/", found["kept"][1])
        self.assertEqual(report.result([function("gone")]), ("open", ""))
        self.assertEqual(report.result([function("holds"), function("waits")]), ("open", ""))
        self.assertEqual(report.result([function("holds"), function("fails")])[0], "refused")

    def test_cycle(self) -> None:
        report = together.Report(LOG)
        pair = [functions.Function(0, 0, (), "", name, "parity") for name in ("even", "odd")]
        how, why = report.result(pair)
        self.assertEqual(how, "refused")
        self.assertIn("./proofs/lists/+parity/", why)
        other = [functions.Function(0, 0, (), "", name, "other") for name in ("even", "odd")]
        self.assertEqual(report.result(other), ("open", ""))

    def test_others(self) -> None:
        failing = [function(name) for name in ("fails", "kept", "bad")]
        failing.append(functions.Function(0, 0, (), "", "odd", "parity"))
        self.assertFalse(together.Report(LOG).has_others(failing))
        self.assertTrue(together.Report(LOG).has_others(failing[1:]))
        self.assertTrue(together.Report(LOG).has_others(failing[:-1]))


class TrialTest(unittest.TestCase):
    """A crate of four functions, each with a body that is its name, and what a prover would print of it."""

    BODIES = ("a", "b", "c", "d")

    def setUp(self) -> None:
        room = tempfile.TemporaryDirectory()
        self.addCleanup(room.cleanup)
        self.folder = pathlib.Path(room.name)
        (self.folder / "src").mkdir()
        self.source = self.folder / "src/lib.rt"
        self.source.write_text("".join(f"fn {name}() {{\n    is_{name}\n}}\n\n" for name in self.BODIES))
        self.asked: list[list[str]] = []

    def edit(self, name: str, of: str, body: str) -> pathlib.Path:
        file = self.folder / f"{name}.edit"
        file.write_text(f"file: src/lib.rt\nold: is_{of}\nnew: {body}\n")
        return file

    def check(self, words: list[str]) -> str:
        """A prover that rejects `wrong`, reads no `unread` and knows no `hidden`; b calls a."""
        asked = words[1::2]
        self.asked.append(asked)
        bodies = dict(re.findall(r"fn (\w)\(\) \{\n    (\w+)", self.source.read_text()))
        if "unread" in bodies.values():
            return "error[unknown-name]"
        hidden = [name for name in asked if bodies[name] == "hidden"]
        if hidden:
            return f"rattle: error: `x` has no function `{hidden[0]}`: help: write the name"
        lines = []
        for name in asked:
            if name == "b" and bodies["a"] != "is_a" and bodies["b"] != "wrong":
                lines.append("fn x::b: no proof: it calls `x::a`, which is not proved")
            elif bodies[name] == "wrong":
                lines.append(f"fn x::{name}: no proof: `search` did not prove `returns`")
            else:
                lines.append(f"fn x::{name}: proved")
            if bodies[name] == "spreads":
                lines.append("fn x::other: no proof: `search` did not prove `returns`")
        return "\n".join([*lines, f"only={len(asked)} proved=0"])

    def refused(self, *files: pathlib.Path) -> collections.abc.KeysView[str]:
        before = self.source.read_text()
        found = together.try_together(self.folder, files, self.check)
        self.assertEqual(self.source.read_text(), before)
        return found.keys()

    def test_one_check(self) -> None:
        mutants = [self.edit(f"m_{name}", name, "wrong") for name in self.BODIES]
        self.assertEqual(self.refused(*mutants), {"m_a", "m_b", "m_c", "m_d"})
        self.assertEqual(self.asked, [["a", "b", "c", "d"]])

    def test_turns(self) -> None:
        mutants = [self.edit("m", "a", "wrong"), self.edit("n", "a", "wrong"), self.edit("o", "c", "wrong")]
        self.assertEqual(self.refused(*mutants), {"m", "n", "o"})
        self.assertEqual(self.asked, [["a", "c"], ["a"]])

    def test_let_through(self) -> None:
        self.assertEqual(self.refused(self.edit("m", "a", "wrong"), self.edit("n", "c", "right")), {"m"})

    def test_waits(self) -> None:
        self.assertEqual(self.refused(self.edit("m", "a", "wrong"), self.edit("n", "b", "right")), {"m"})
        self.assertEqual(self.asked, [["a", "b"], ["b"]])

    def test_unread(self) -> None:
        mutants = [self.edit(f"m_{name}", name, "wrong") for name in "abc"] + [self.edit("n", "d", "unread")]
        self.assertEqual(self.refused(*mutants), {"m_a", "m_b", "m_c"})

    def test_unknown(self) -> None:
        self.assertEqual(self.refused(self.edit("m", "a", "wrong"), self.edit("n", "c", "hidden")), {"m"})
        self.assertEqual(self.asked, [["a", "c"], ["a"]])

    def test_another_function_fails(self) -> None:
        self.assertEqual(self.refused(self.edit("m", "a", "wrong"), self.edit("n", "c", "spreads")), set())

    def test_no_function(self) -> None:
        self.assertEqual(self.refused(self.edit("m", "a()", "wrong")), set())
        self.assertEqual(self.asked, [])


class KeptTest(unittest.TestCase):
    """A repository of two crates: high uses low. Each has mutants that were refused over the first commit."""

    FILES = {
        "crates.txt": "low:\nhigh: low\n",
        "HANDLES": "Handles allowed: none.\n",
        "crates/low/src/lib.rt": "fn low() {}\n",
        "crates/low/must-fail/m.edit": "file: src/lib.rt\n",
        "crates/high/specs/Lib.antt": "",
        "crates/high/src/lib.rt": "fn high() {}\n",
        "crates/high/mutants/n.edit": "file: src/lib.rt\n",
        "crates/high/mutants/o.edit": "file: src/lib.rt\n",
    }

    def setUp(self) -> None:
        room = tempfile.TemporaryDirectory()
        self.addCleanup(room.cleanup)
        self.addCleanup(os.chdir, os.getcwd())
        os.chdir(room.name)
        root = unittest.mock.patch.object(crates, "ROOT", pathlib.Path(room.name))
        root.start()
        self.addCleanup(root.stop)
        self.git("init", "--quiet")
        self.commit(self.FILES)
        first = self.git("rev-parse", "--short=7", "HEAD")
        tried = "".join(f"{name} {first} 2026-11-30\n" for name in ("high/n", "high/o", "low/m"))
        self.commit({"docs/mutants.tried": mutants.COMMENT + tried})

    def git(self, *words: str) -> str:
        who = ("-c", "user.name=a", "-c", "user.email=a@b")
        return subprocess.run(["git", *who, *words], capture_output=True, text=True, check=True).stdout.strip()

    def write(self, files: dict[str, str]) -> None:
        for name, text in files.items():
            pathlib.Path(name).parent.mkdir(parents=True, exist_ok=True)
            pathlib.Path(name).write_text(text)

    def commit(self, files: dict[str, str]) -> None:
        self.write(files)
        self.git("add", ".")
        self.git("commit", "--quiet", "-m", "files")

    def kept(self) -> set[str]:
        return set(mutants.kept(mutants.named(["low", "high"])))

    def test_nothing_changed(self) -> None:
        self.assertEqual(self.kept(), {"high/n", "high/o", "low/m"})

    def test_page_changed(self) -> None:
        self.commit({"README.md": "a page"})
        self.assertEqual(self.kept(), {"high/n", "high/o", "low/m"})

    def test_crate_above_changed(self) -> None:
        self.commit({"crates/high/specs/Lib.antt": "pub mod Other\n"})
        self.assertEqual(self.kept(), {"low/m"})

    def test_crate_below_changed(self) -> None:
        self.commit({"crates/low/src/lib.rt": "fn lower() {}\n"})
        self.assertEqual(self.kept(), set())

    def test_mutant_changed(self) -> None:
        self.commit({"crates/high/mutants/o.edit": "file: specs/Lib.antt\n"})
        self.assertEqual(self.kept(), {"high/n", "low/m"})

    def test_new_mutant(self) -> None:
        self.commit({"crates/low/mutants/p.edit": "file: src/lib.rt\n"})
        self.assertEqual(self.kept(), {"high/n", "high/o", "low/m"})

    def test_crates_changed(self) -> None:
        self.commit({"crates.txt": "low:\nother:\nhigh: low\n"})
        self.assertEqual(self.kept(), set())

    def test_not_committed(self) -> None:
        self.write({"crates/high/src/lib.rt": "fn higher() {}\n"})
        self.assertEqual(self.kept(), set())

    def test_unknown_commit(self) -> None:
        self.commit({"docs/mutants.tried": mutants.COMMENT + "high/n abcdef0 2026-11-30\n"})
        self.assertEqual(self.kept(), set())


# Five checks that do not end by themselves, each with a file that tells where its temporary folder is, or 'none'; and
# others that do. SIGTERM does not end all that they run.
CHECKS = {
    "python.py": """\
        import pathlib, time
        held = open("held", "w")
        print("is shown")
        pathlib.Path("python").write_text("none")
        time.sleep(60)
        """,
    "performs.py": """\
        import pathlib, sys, time
        sys.path.insert(0, "{folder}")
        import checks
        held = open("held", "w")
        told = pathlib.Path("performs").resolve()
        def waits(check):
            told.write_text(str(check.work))
            time.sleep(60)
        checks.perform(waits)
        """,
    "tests.py": """\
        import pathlib, sys, tempfile, time, unittest
        sys.path.insert(0, "{folder}")
        import tally
        held = open("held", "w")
        class Tests(unittest.TestCase):
            def test_1(self):
                room = tempfile.TemporaryDirectory()
                self.addCleanup(room.cleanup)
                pathlib.Path("tests").write_text(room.name)
                time.sleep(60)
            def test_2(self):
                pass
        tally.tell()
        """,
    "shell.sh": """\
        . {folder}/lib.sh
        exec 3> held
        echo '3 passed, 0 failed'
        (trap '' TERM; exec sleep 60) &
        within 60 sh -c 'echo "$0" > shell; exec sleep 60' "$work"
        """,
    "deaf.sh": """\
        exec 3> held
        trap '' TERM
        printf 'is shown'
        echo none > deaf
        sleep 60
        echo it goes on
        """,
    "ends.sh": "echo '2 passed, 0 failed'\n",
    "counts.sh": """\
        . {folder}/lib.sh
        counted 'a command' sh -c 'echo 2 passed, 0 failed; exit 3'
        counted 'another' echo 1 passed, 0 failed
        counted 'nothing' echo 0 passed, 0 failed
        counted 'what is absent' printf '%s\\n' 'it: not run, since there is none' '0 passed, 0 failed'
        stage sh -c 'echo 0 passed, 0 failed'
        stage eval 'echo 4 passed, 0 failed; exit 0'
        finish
        """,
    "counts_too.py": """\
        import sys
        sys.path.insert(0, "{folder}")
        import checks
        def counts(check):
            check.counted("a command", ["sh", "-c", "echo 2 passed, 0 failed; exit 3"])
            check.counted("another", ["echo", "1 passed, 0 failed"])
            check.counted("nothing", ["echo", "0 passed, 0 failed"])
            absent = "it: not run, since there is none"
            check.counted("what is absent", ["printf", r"%s\\n", absent, "0 passed, 0 failed"])
        checks.perform(counts)
        """,
    "nothing.sh": "echo '0 passed, 0 failed'\n",
    "absent.sh": "echo 'absent: not run, since there is none'; echo '0 passed, 0 failed'\n",
}


class ChecksTest(unittest.TestCase):
    def setUp(self) -> None:
        room = tempfile.TemporaryDirectory()
        self.addCleanup(room.cleanup)
        self.top = pathlib.Path(room.name)
        (self.top / check.FOLDER).mkdir(parents=True)
        for name, text in CHECKS.items():
            (self.top / check.FOLDER / name).write_text(textwrap.dedent(text).format(folder=checks.ROOT / check.FOLDER))
        top = unittest.mock.patch.object(check, "ROOT", self.top)
        top.start()
        self.addCleanup(top.stop)

    def told(self, *names: str) -> list[str]:
        """The lines of checks that run side by side, one of which fails."""
        with contextlib.redirect_stdout(io.StringIO()) as said:
            self.assertEqual(check.perform_all(list(names), len(names), 2), 1)
        return said.getvalue().splitlines()

    def test_limit(self) -> None:
        """Checks that run longer than they may are ended with all that they have begun, and have failed."""
        # what runs holds the other end
        os.mkfifo(self.top / "held")
        reader = os.open(self.top / "held", os.O_RDONLY | os.O_NONBLOCK)
        self.addCleanup(os.close, reader)
        late = ("python", "performs", "tests", "shell", "deaf")

        def seconds() -> float:
            """A clock: all have begun before the limit is reached, and it goes on when no folder is there."""
            told = [path.read_text().strip() for name in late if (path := self.top / name).exists()]
            if len(told) < len(late) or "" in told:
                return 0
            return 120 + check.SECONDS_TO_END * (not any(map(os.path.exists, told)))

        with unittest.mock.patch.object(check, "time", unittest.mock.Mock(monotonic=seconds)):
            lines = self.told(*late, "ends")
        for name in late:
            self.assertIn(f"failed: {name} did not end within 2 minutes", lines)
        self.assertEqual(lines.count("is shown"), 2, "a folder stays, or what ignores SIGTERM goes on")
        self.assertEqual(lines[-1], "5 passed, 5 failed")
        has_ended = select.poll()
        has_ended.register(reader)
        self.assertTrue(has_ended.poll(10_000), "something runs")

    def test_status_of_what_counts(self) -> None:
        for name, counts in (("counts", "7 passed, 4 failed"), ("counts_too", "3 passed, 2 failed")):
            self.assertEqual(self.told(name)[-1], counts, name)

    def test_nothing_is_counted(self) -> None:
        self.assertEqual(self.told("nothing", "absent")[-1], "0 passed, 1 failed")


if __name__ == "__main__":
    tally.tell()
