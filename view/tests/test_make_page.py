#!/usr/bin/env python3
"""The maker of the page without a browser: what it embeds, its policy, and how it ends."""
import base64
import contextlib
import hashlib
import html.parser
import io
import json
import os
import pathlib
import re
import shutil
import subprocess
import sys
import threading
import unittest

from support import STREAMS, WORK, page_of, run, written
from tally import tell

import dumps
import make_page
import samples


class Scripts(html.parser.HTMLParser):
    """The attributes and the texts of a page's scripts and styles, and its policy."""

    def __init__(self, text):
        super().__init__()
        self.found, self.policy, self.tags, self.is_inside, self.title = [], None, [], False, ""
        self.feed(text)

    def handle_starttag(self, tag, attributes):
        attributes = dict(attributes)
        self.tags.append(tag)
        if attributes.get("http-equiv") == "Content-Security-Policy":
            self.policy = attributes["content"]
        self.is_inside = tag in ("script", "style")
        if self.is_inside:
            self.found.append([tag, attributes, ""])

    def handle_endtag(self, tag):
        self.is_inside = False

    def handle_data(self, data):
        if self.is_inside:
            self.found[-1][2] += data
        elif self.tags[-1:] == ["title"]:
            self.title += data.strip()


class Embedding(unittest.TestCase):
    def test_the_lines_are_those_of_the_dump(self):
        page = Scripts(page_of(STREAMS / "replay").read_text())
        (data,) = [text for _, attributes, text in page.found if attributes.get("id") == "journal-0"]
        self.assertEqual(data.strip(), (STREAMS / "replay.dump").read_text().strip())

    def test_no_tag_and_no_comment_begins_in_data(self):
        hostile = '</script><!--<script>\u2028&amp;${title}$policy'
        text = make_page.embedded(json.dumps({"text": hostile}))
        self.assertNotIn("<", text)
        self.assertEqual(json.loads(text), {"text": hostile})

    def test_names_of_files_are_texts(self):
        name = "<img src=x onerror=alert(1)>&amp;"
        page = Scripts(page_of(written(name, b"")).read_text())
        self.assertNotIn("img", page.tags)

    def test_the_policy_has_this_script_and_this_style_alone(self):
        page = Scripts(page_of(STREAMS / "recorded", STREAMS / "replayed_other_handler").read_text())
        hashed = {
            tag: base64.b64encode(hashlib.sha256(text.encode()).digest()).decode()
            for tag, attributes, text in page.found
            if "type" not in attributes
        }
        sources = page.policy.split("; ")
        self.assertEqual(sources[:1], ["default-src 'none'"])
        self.assertIn(f"script-src 'sha256-{hashed['script']}'", sources)
        self.assertIn(f"style-src 'sha256-{hashed['style']}'", sources)
        self.assertNotIn("unsafe", page.policy)

    def test_the_page_names_no_address(self):
        text = page_of(STREAMS / "replay").read_text()
        self.assertEqual(set(re.findall(r"\w+://[^\s\"'`]*", text)), {"http://www.w3.org/2000/svg"})

    def test_the_same_journal_has_the_same_page(self):
        self.assertEqual(page_of(STREAMS / "replay").read_bytes(), page_of(STREAMS / "replay").read_bytes())


class Limits(unittest.TestCase):
    def embedded(self, *words):
        page = Scripts(page_of(*words).read_text())
        (lines,) = [text for _, attributes, text in page.found if attributes.get("id") == "journal-0"]
        (about,) = [text for _, attributes, text in page.found if attributes.get("id") == "about"]
        return [json.loads(line) for line in lines.strip().split("\n")], json.loads(about)["journals"][0]

    def test_items_beyond_the_limit_are_counted(self):
        lines, about = self.embedded(written("ten", samples.frame("End") * 10), "--items", "3")
        self.assertEqual([line["offset"] for line in lines], [0, 8, 16, 80])
        self.assertEqual((about["items"], about["shown"], about["bytes"]), (10, 3, 80))

    def test_as_many_as_the_limit_are_all_shown(self):
        lines, about = self.embedded(written("three", samples.frame("End") * 3), "--items", "3")
        self.assertEqual((len(lines), about["items"], about["shown"]), (4, 3, 3))

    def test_of_a_long_text_the_first_64_kilobytes_are_kept(self):
        content = b"x" * dumps.LINE_CHARACTERS
        stream = samples.frame("InputCommand", value={"content": content}) + samples.frame("End")
        lines, about = self.embedded(written("long", stream))
        kept = base64.b64decode(lines[0]["message"]["value"]["content"])
        self.assertEqual(kept, b"x" * 65_532)
        whole = base64.b64encode(content)
        padding = len(whole) - len(whole.rstrip(b"="))
        digest = hashlib.sha256(whole).hexdigest()
        self.assertEqual(
            lines[0]["cut"], {"value.content": {"characters": len(whole), "padding": padding, "sha256": digest}}
        )
        self.assertEqual((lines[0]["type"], lines[1]["type"], about["shown"]), ("InputCommand", "End", 2))

    def test_the_payload_of_a_long_line_of_short_texts_is_left_out(self):
        headers = [{"key": "k" * 1000, "value": "v"}] * (dumps.LINE_CHARACTERS // 1000)
        lines, about = self.embedded(written("headers", samples.frame("InputCommand", headers=headers)))
        self.assertRegex(lines[0]["leftOut"], "^[0-9a-f]{64}$")
        self.assertNotIn("message", lines[0])
        self.assertEqual((lines[0]["type"], about["shown"]), ("InputCommand", 1))


class Verdicts(unittest.TestCase):
    def test_each_first_line(self):
        for text, kind, index in (
            ("same, 4 commands", "same", 4),
            ("same, 1 command", "same", 1),
            ("recorded ends at command 0", "recorded ends", 0),
            ("replayed ends at command 12", "replayed ends", 12),
            ("command 2: Found a mismatch\n- more", "differs", 2),
            ("journal diff: the recorded command 1 is malformed", "recorded malformed", 1),
            ("journal diff: the replayed command 3 is malformed", "replayed malformed", 3),
        ):
            self.assertEqual(make_page.verdict_of(text), {"kind": kind, "index": index, "text": text})

    def test_other_texts_are_no_verdict(self):
        for text in ("", "same", "journal diff: out of memory", "recorded ends at command", "x\ncommand 1: y"):
            self.assertIsNone(make_page.verdict_of(text))


class Differences(unittest.TestCase):
    """What journal diff --all --json prints, as the page takes it."""

    def script(self, status, *lines):
        """The differences of a program that prints these lines and ends so."""
        code = f"import sys; print({chr(10).join(lines)!r}); sys.exit({status})"
        return make_page.script_of([sys.executable, "-c", code], ["recorded", "replayed"])

    def test_the_differences_between_what_is_the_same(self):
        lines = (
            '{"sentence":"x","isLeast":true,"same":3,"inserted":1,"removed":0,"changed":0}',
            '{"change":"same","count":1,"recorded":0,"replayed":0}',
            '{"change":"inserted","type":"SetStateCommand","recorded":1,"recordedAt":16,"replayed":1,"replayedAt":16}',
            '{"change":"same","count":2,"recorded":1,"recordedAt":16,"replayed":2,"replayedAt":32}',
        )
        self.assertEqual(self.script(1, *lines), [{"change": "inserted", "recorded": 1, "replayed": 1}])

    def test_more_differences_than_were_looked_for(self):
        self.assertIsNone(self.script(1, '{"sentence":"x","isLeast":false,"same":0}'))

    def test_no_verdict(self):
        self.assertIsNone(self.script(2))

    def test_of_two_streams(self):
        page = page_of(STREAMS / "recorded", STREAMS / "replayed_other_handler").read_text()
        self.assertIn('"script":[{"change":"changed","recorded":2,"replayed":2}]', page)


class Endings(unittest.TestCase):
    def test_the_page_is_named(self):
        path = WORK / "named.html"
        self.assertEqual(run(STREAMS / "replay", "-o", path)[:2], (0, f"{path}\n"))
        self.assertTrue(path.read_text().startswith("<!doctype html>"))

    def refused(self, line, *words):
        path = WORK / "unwritten.html"
        self.assertEqual(run(*words, "-o", path), (2, "", f"view: {line}\n"))
        self.assertFalse(path.exists())

    def test_a_stream_that_is_not_there(self):
        self.refused(f"{WORK / 'nothing'}: No such file or directory", WORK / "nothing")
        self.refused(f"{WORK}: Is a directory", WORK)

    def test_a_file_without_a_message(self):
        path = written("text", b"this is a text and no journal")
        self.refused(f"{path}: no message in it; is it a journal of version 8?", path)
        self.refused(
            f"{path}: no message in it; is it a journal of version 7?", "--protocol", "7", STREAMS / "replay", path
        )
        # a journal may be empty, which is said
        path, page = written("empty", b""), WORK / "empty.html"
        self.assertEqual(run(path, "-o", page), (0, f"{page}\n", f"view: {path}: the journal is empty\n"))

    def test_a_folder_that_is_not_there(self):
        status, output, error = run(STREAMS / "replay", "-o", WORK / "no folder" / "page.html")
        self.assertEqual((status, output), (2, ""))
        self.assertIn("no folder", error)

    def test_other_arguments(self):
        stream = STREAMS / "replay"
        for words in ((), (stream, stream, stream), ("--protocol", "x", stream), ("--items", "0", stream)):
            self.assertEqual(run(*words)[0], 2)

    def test_a_version_that_the_program_refuses(self):
        path = WORK / "refused.html"
        status, output, error = run("--protocol", "4", STREAMS / "replay", "-o", path)
        self.assertEqual((status, output), (2, ""))
        self.assertIn("journal dump ended with the status 2", error)
        self.assertFalse(path.exists())


class Files(unittest.TestCase):
    """Inputs and outputs that are not plain files, of the maker as it is run."""

    def make(self, *words, **how):
        how = {"stdin": subprocess.DEVNULL, "stdout": subprocess.PIPE, **how}
        words = [sys.executable, make_page.__file__, "--unproved", *words]
        made = subprocess.run(words, stderr=subprocess.PIPE, **how)
        # of programs that are built without the proofs there is a line more
        lines = [line for line in made.stderr.decode().splitlines() if not line.startswith("view: journal is built")]
        return made.returncode, made.stdout, lines

    def wanted(self, *paths):
        return page_of(*paths).read_bytes()

    def test_the_page_on_the_output(self):
        self.assertEqual(self.make(STREAMS / "replay", "-o", "-"), (0, self.wanted(STREAMS / "replay"), []))

    def test_an_output_that_is_closed(self):
        words = ["sh", "-c", 'exec "$@" >&-', "sh", sys.executable, make_page.__file__, "--unproved"]
        made = subprocess.run([*words, STREAMS / "replay", "-o", "-"], stderr=subprocess.PIPE)
        self.assertEqual(made.returncode, 2)
        self.assertEqual(made.stderr.decode().splitlines()[-1], "view: the standard output is closed")

    def test_an_output_that_is_full(self):
        self.assertEqual(
            self.make(STREAMS / "replay", "-o", "/dev/full"), (2, b"", ["view: /dev/full: No space left on device"])
        )
        with open("/dev/full", "wb") as full:
            for output in ("-", WORK / "full.html"):
                with self.subTest(output=output):
                    made = self.make(STREAMS / "replay", "-o", output, stdout=full)
                    self.assertEqual(made, (2, None, ["view: the standard output: No space left on device"]))

    def test_an_output_whose_reader_is_gone(self):
        reader, writer = os.pipe()
        os.close(reader)
        made = self.make(STREAMS / "replay", "-o", "-", stdout=writer)
        os.close(writer)
        self.assertEqual(made, (2, None, ["view: the standard output: Broken pipe"]))

    def test_the_input(self):
        data = (STREAMS / "replay").read_bytes()
        words = [sys.executable, make_page.__file__, "--unproved", "-", "-o", "-"]
        made = subprocess.run(words, input=data, stdout=subprocess.PIPE, stderr=subprocess.DEVNULL)
        self.assertEqual(made.returncode, 0)
        self.assertEqual(made.stdout, self.wanted(written("-", data)))

    def test_the_input_that_is_closed(self):
        words = ["sh", "-c", 'exec "$@" <&-', "sh", sys.executable, make_page.__file__, "--unproved"]
        made = subprocess.run([*words, "-", "-o", "-"], stdout=subprocess.PIPE, stderr=subprocess.PIPE)
        self.assertEqual((made.returncode, made.stderr), (2, b"view: the standard input is closed\n"))

    def test_the_input_as_both_journals(self):
        status, output, lines = self.make("-", "-", "-o", "-")
        self.assertEqual(
            (status, output, lines[-1]), (2, b"", "run.sh journal view: error: - is one of two journals at most")
        )

    def test_fifos(self):
        paths = [STREAMS / "recorded", STREAMS / "replayed_other_handler"]
        fifos = [WORK / "fifos" / path.name for path in paths]
        fifos[0].parent.mkdir()
        for path, fifo in zip(paths, fifos):
            os.mkfifo(fifo)
            threading.Thread(target=fifo.write_bytes, args=[path.read_bytes()]).start()
        self.assertEqual(self.make(*fifos, "-o", "-"), (0, self.wanted(*paths), []))

    def test_names_that_are_not_utf_8(self):
        name = os.fsencode(WORK) + b"/not\xff\x1butf-8"
        with open(name, "wb") as file:
            file.write((STREAMS / "replay").read_bytes())
        page = name + b".html"
        self.assertEqual(self.make(name, "-o", page), (0, page + b"\n", []))
        with open(page, "rb") as file:
            self.assertEqual(Scripts(file.read().decode()).title, "not\\xff\\u001butf-8")
        status, _, lines = self.make(name + b"other", "-o", "-")
        self.assertEqual((status, len(lines)), (2, 1))


    def test_a_page_that_cannot_be_written_leaves_the_one_before(self):
        folder = WORK / "kept"
        folder.mkdir()
        page = folder / "page.html"
        page.write_text("before")
        # a limit of what a file may hold, as a disk that is full
        limited = 'trap "" XFSZ; ulimit -f 8; exec "$@"'
        words = ["sh", "-c", limited, "sh", sys.executable, make_page.__file__, "--unproved"]
        made = subprocess.run([*words, STREAMS / "replay.dump", "-o", page], capture_output=True)
        self.assertEqual((made.returncode, made.stdout, page.read_text()), (2, b"", "before"))
        self.assertEqual(list(folder.iterdir()), [page])

    def test_a_page_keeps_its_mode_and_its_link(self):
        page, link = WORK / "mode.html", WORK / "link.html"
        page.write_text("before")
        page.chmod(0o640)
        link.symlink_to(page)
        self.assertEqual(run(STREAMS / "replay.dump", "-o", link)[0], 0)
        self.assertTrue(link.is_symlink())
        self.assertEqual(page.stat().st_mode & 0o777, 0o640)
        self.assertTrue(page.read_text().startswith("<!doctype html>"))

    def test_help_is_within_80_columns(self):
        for columns in ("60", "80", "200"):
            words = [sys.executable, make_page.__file__, "--help"]
            said = subprocess.run(words, capture_output=True, text=True, env={**os.environ, "COLUMNS": columns})
            self.assertLessEqual(max(map(len, said.stdout.splitlines())), min(79, int(columns)))


class Installed(unittest.TestCase):
    """The maker as it is installed: its files below share/pendratsoa, and a link to it in bin."""

    def setUp(self):
        self.prefix = WORK / "a prefix"
        shutil.rmtree(self.prefix, ignore_errors=True)
        share = self.prefix / "share" / "pendratsoa"
        shutil.copytree(make_page.HERE, share / "view", ignore=shutil.ignore_patterns("tests", "__pycache__"))
        shutil.copy(make_page.ROOT / "VERSION", share)
        (self.prefix / "bin").mkdir()
        (share / "view" / "make_page.py").chmod(0o755)
        (self.prefix / "bin" / "journal_view").symlink_to("../share/pendratsoa/view/make_page.py")

    def make(self, *words):
        made = subprocess.run(
            [self.prefix / "bin" / "journal_view", *words], stdin=subprocess.DEVNULL, capture_output=True,
            cwd=WORK, text=True,
        )  # fmt: skip
        return made.returncode, made.stdout, made.stderr

    def test_a_page_of_a_dump_takes_no_program(self):
        page = WORK / "installed.html"
        self.assertEqual(self.make("-o", page, STREAMS / "replay.dump"), (0, f"{page}\n", ""))
        self.assertEqual(page.read_bytes(), page_of(STREAMS / "replay.dump").read_bytes())
        self.assertEqual(list(self.prefix.rglob("*.pyc")), [])

    def test_it_takes_the_program_beside_it(self):
        page, program = WORK / "installed.html", self.prefix / "bin" / "journal"
        self.assertEqual(self.make("-o", page, STREAMS / "replay"), (2, "", f"view: there is no {program}\n"))
        program.symlink_to(make_page.program(True))
        self.assertEqual(self.make("-o", page, STREAMS / "replay"), (0, f"{page}\n", ""))
        self.assertEqual(page.read_bytes(), page_of(STREAMS / "replay").read_bytes())

    def test_its_help_and_its_version(self):
        version = (make_page.ROOT / "VERSION").read_text()
        self.assertEqual(self.make("--version"), (0, f"journal_view {version}", ""))
        status, said, _ = self.make("--help")
        self.assertEqual((status, said.partition("[")[0]), (0, "usage: journal_view "))
        self.assertNotIn("--unproved", said)


def line(**members):
    """A line of a dump."""
    return json.dumps({"offset": 0, "type": "RunCommand", "code": 0x0411, "length": 3, **members})


class Dumps(unittest.TestCase):
    """Dumps from a file in the place of streams."""

    def lines(self, *words):
        page = Scripts(page_of(*words).read_text())
        (lines,) = [text for _, attributes, text in page.found if attributes.get("id") == "journal-0"]
        (about,) = [text for _, attributes, text in page.found if attributes.get("id") == "about"]
        return lines.strip().split("\n"), json.loads(about)["journals"][0]

    def test_a_dump_has_the_page_of_its_stream(self):
        for name in ("replay", "cut_short", "unknown_type", "recorded"):
            with self.subTest(name=name):
                of_stream, _ = self.lines(STREAMS / name)
                dump = subprocess.run(
                    [make_page.program(True), "dump", STREAMS / name], stdout=subprocess.PIPE, stderr=subprocess.DEVNULL
                )
                of_dump, about = self.lines(written(f"{name}.jsonl", dump.stdout))
                self.assertEqual(of_dump, of_stream)
                self.assertEqual(about["dump"], {"isWhole": True, "gaps": 0})

    def test_no_program_is_taken(self):
        taken = make_page.program
        self.addCleanup(setattr, make_page, "program", taken)
        make_page.program = None
        dump = STREAMS / "replay.dump"
        self.assertEqual(run(dump, dump, "-o", WORK / "dumps.html")[0], 0)

    def test_bytes_as_texts_are_bytes(self):
        dump = line(type="InputCommand", message={"value": {"content": {"text": "Zo\u00eb"}}})
        lines, _ = self.lines(written("text.jsonl", dump.encode()))
        self.assertEqual(json.loads(lines[0])["message"], {"value": {"content": "Wm/Dqw=="}})

    def test_what_is_missing_is_known(self):
        lines, about = self.lines(written("part.jsonl", f"\ufeff\n  {line(offset=40)}\r\n\n".encode()))
        self.assertEqual(json.loads(lines[-1]), {"offset": 51, "rest": 0})
        self.assertEqual(about["dump"], {"isWhole": False, "gaps": 1})

    def test_lines_that_are_no_items(self):
        futures = {}
        for _ in range(120):
            futures = {"nestedFutures": [futures]}
        for text, why in (
            (line() + "\n{", "2: no JSON"),
            (line() + "\n[]", "2: no JSON object"),
            (line(offset=None), "1: no offset"),
            (line(offset=-1), "1: offset: wrong kind of value"),
            (line(offset=True), "1: offset: wrong kind of value"),
            (line(code=65536), "1: code: wrong kind of value"),
            (line(code=None), "1: no code"),
            (line(bytes="?"), "1: bytes: no bytes in base64"),
            (line(message=5), "1: message: wrong kind of value"),
            (line(message={"name": 5}), "1: message.name: wrong kind of value"),
            (line(message={"name": ["a"]}), "1: message.name: wrong kind of value"),
            (line(message={"constructor": 1}), "1: message.constructor: no such field"),
            (line(message={"resultCompletionId": 2**32}), "1: message.resultCompletionId: no such number"),
            (line(message={"resultCompletionId": 1.5}), "1: message.resultCompletionId: no such number"),
            (line(type="constructor", message={}), "1: message: its type is not known"),
            (line(type=[], message={}), "1: type: wrong kind of value"),
            ('{"message":{},"type":[]}', "1: message: its type is not known"),
            (line(type="InputCommand", message={"headers": {}}), "1: message.headers: wrong kind of value"),
            (
                line(type="InputCommand", message={"value": {"content": "a"}}),
                "1: message.value.content: no bytes in base64",
            ),
            (line(type="Suspension", message={"awaitingOn": futures}), "more than 100 levels"),
            ('{"' + "[" * 100_000, "1: no JSON"),
            ('{"a":' + "[" * 100_000, "1: more levels than an item has"),
            ('{"offset":0,"rest":0}\n' + line(), "2: a line after that of the rest"),
        ):
            with self.subTest(why=why):
                path = written("wrong.jsonl", text.encode())
                status, output, error = run(path, "-o", WORK / "wrong.html")
                self.assertEqual((status, output), (2, ""))
                self.assertTrue(error.startswith(f"view: {path}:"), error)
                self.assertIn(why, error)
                self.assertEqual(len(error.splitlines()), 1)
                self.assertFalse((WORK / "wrong.html").exists())

    def test_a_dump_that_is_no_utf_8(self):
        path = written("latin.jsonl", line().encode() + b'\n{"type":"\xff"}')
        self.assertEqual(run(path, "-o", WORK / "wrong.html"), (2, "", f"view: {path}:2: no UTF-8\n"))

    def test_half_a_character_stays_one(self):
        lines, _ = self.lines(
            written("half.jsonl", b'{"offset":0,"type":"RunCommand","code":1041,"message":{"name":"\\ud800"}}')
        )
        self.assertEqual(json.loads(lines[0])["message"], {"name": "\ud800"})


class Said(unittest.TestCase):
    def test_progress_comes_after_a_while(self):
        error = io.StringIO()
        with contextlib.redirect_stderr(error):
            progress = dumps.Progress("a journal", 200)
            for read in range(128):
                progress.count(read)
            self.assertEqual(error.getvalue(), "")
            progress.next = 0
            for read in range(64):
                progress.count(128 + read)
            progress.end()
        self.assertEqual(error.getvalue(), "view: a journal: 192 items, 95 %\n")


class Protocol(unittest.TestCase):
    def test_a_suspension_has_another_message_before_version_7(self):
        for version, message in ((5, "SuspensionMessageV6"), (6, "SuspensionMessageV6"), (7, "SuspensionMessage")):
            self.assertEqual(make_page.messages_of(version)["types"]["Suspension"]["message"], message)

    def test_every_script_is_in_the_page(self):
        scripts = {path.stem for path in (pathlib.Path(make_page.HERE) / "script").glob("*.js")}
        self.assertEqual(scripts, set(make_page.SCRIPTS))


if __name__ == "__main__":
    tell(sys.argv[1:])
