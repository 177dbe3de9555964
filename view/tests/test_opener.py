"""The page that opens journals, in a headless browser from its file: of streams that are dropped on it or chosen it
shows what the page shows that the programs make, also of streams at the field numbers of a schema; and it requests
nothing."""
import base64
import json
import subprocess

import support
from support import STREAMS, VIEW, WORK, PageTest, make_page, page_of, the_browser, written

import make_opener
import samples
import write_numbering
from samples import frame, raw_frame

PAGE = WORK / "journal_view.html"
browser = None

DROP = """(async () => {
  const files = new DataTransfer();
  for (const [name, text] of %s) {
    files.items.add(new File([Uint8Array.from(atob(text), (unit) => unit.charCodeAt(0))], name));
  }
  document.getElementById('version').value = '%s';
  const event = new DragEvent('drop', { dataTransfer: files, bubbles: true, cancelable: true });
  document.querySelector('%s').dispatchEvent(event);
})()"""
SAYS = "document.getElementById('opener-says')?.textContent"
OPENED = f"document.body.dataset.ready === 'true' || !/^$|^Reading|Decoding \\.\\.$/.test({SAYS})"


def setUpModule():
    global browser
    make_opener.main([support.MODULE, str(PAGE)])
    browser = the_browser()


def output(subcommand, *paths, version=8, options=()):
    """What a subcommand of journal writes of streams."""
    words = [make_page.program(True), subcommand, "--protocol", str(version), *options, "--", *paths]
    return subprocess.run(words, capture_output=True).stdout


def printed(*words, **more):
    """What it prints."""
    return output(*words, **more).decode().rstrip("\n")


class OpenerTest(PageTest):
    def drop(self, *streams, version=8):
        """Opens the page and drops streams on it, each a name and bytes."""
        browser.load(PAGE)
        self.drop_more(*streams, version=version)
        browser.wait(OPENED)

    def drop_more(self, *streams, version=8, place="html"):
        """Drops streams on the page that is there, or on an element of it."""
        files = [[name, base64.b64encode(data).decode()] for name, data in streams]
        browser.evaluate(DROP % (json.dumps(files), version, place))

    def choose(self, *paths, schema=None, renames=""):
        """Opens the page and chooses files."""
        browser.load(PAGE)
        for name, path in zip(("recorded", "replayed"), paths):
            browser.choose(f"#{name}", path)
        if schema:
            browser.choose("#schema", schema)
        browser.evaluate(f"document.getElementById('renames').value = {json.dumps(renames)}")
        self.show()

    def show(self):
        """Shows the files that are chosen."""
        browser.evaluate("document.getElementById('open').click()")
        browser.wait(OPENED)

    def lines(self, side=0):
        return self.value(f"document.getElementById('journal-{side}').textContent").strip("\n")


class OneJournal(OpenerTest):
    def check(self, name, data, version=8):
        self.drop((name, data), version=version)
        self.assertEqual(self.lines(), printed("dump", written(name, data), version=version))
        self.assertEqual(self.text("h1"), name)

    def test_examples(self):
        for name, version in (("recorded", 8), ("replay", 8), ("cut_short", 8), ("three_unknown_types", 8),
                              ("unknown_type", 8), ("unknown_type", 9)):
            self.check(name, (STREAMS / name).read_bytes(), version)

    def test_an_adversarial_stream(self):
        # malformed payloads, flags in headers, a custom entry, a text that is markup
        data = samples.audited()[0] + raw_frame(0x0403, b"\x0a\xff") + raw_frame(5, b"", flag=1)
        data += raw_frame(0xFC01, b"\x00\xff") + b"\x04\x00\x00\x01" + bytes(4) + raw_frame(0x0400, b"", flag=1)
        data += raw_frame(1, b"\x0a\x01\x11")
        data += frame("RunCommand", name="</script><img src=x onerror=alert(1)>", result_completion_id=1) + b"\x04"
        self.check("<b>adversarial", data)
        self.check("early", data, 5)

    def test_as_the_page_of_the_programs(self):
        data = (STREAMS / "recorded").read_bytes()
        facts = ["#facts", "#legend", "#matches", "#rows", "#types"]
        self.drop(("recorded", data))
        found = [self.text(name) for name in facts]
        browser.open(page_of(written("recorded", data)))
        self.assertEqual(found, [self.text(name) for name in facts])

    def test_what_is_no_journal(self):
        self.drop(("noise", b"abc"))
        self.assertEqual(self.text("#opener-says"), "noise: no message in it; is it a journal of version 8?")

    def test_a_chosen_file(self):
        self.choose(STREAMS / "replay")
        self.assertEqual(self.lines(), (STREAMS / "replay.dump").read_text().rstrip("\n"))


class TwoJournals(OpenerTest):
    def test_pairs(self):
        for other in ("recorded", "replayed_other_handler", "replayed_other_payload"):
            streams = [(name, (STREAMS / name).read_bytes()) for name in ("recorded", other)]
            facts = ["#sentence", "#legend", "#facts", "#rows"]
            self.drop(*streams)
            found = [self.text(name) for name in facts]
            paths = [written(f"{side} {name}", data) for side, (name, data) in enumerate(streams)]
            browser.open(page_of(*paths))
            names = [f"{side} {name}" for side, (name, _) in enumerate(streams)]
            wanted = [self.text(name) for name in facts]
            for (name, _), shown in zip(streams, names):
                wanted = [text.replace(shown, name) for text in wanted]
            self.assertEqual(found, wanted)

    def check_long(self, paths, schema=None, options=()):
        """Journals of 8 MB, with more items than a page shows: they are read and compared part by part."""
        self.choose(*paths, schema=schema)
        self.assertIn("command 51,000", self.text("#sentence"))
        self.assertEqual([self.text(f"#sentence .side-{side}") for side in (0, 1)], ["run 0051000", "ran 0051000"])
        self.assertEqual(self.value("about.verdict.text"), printed("diff", *paths, options=options))
        for side, path in enumerate(paths):
            first, *_, last = lines = self.lines(side).split("\n")
            self.assertEqual([len(lines), json.loads(first)["message"]["name"]], [100_001, "run 0003000"])
            self.assertEqual(json.loads(last), {"offset": path.stat().st_size, "rest": 0})

    def test_long_journals_begin_before_the_first_difference(self):
        streams = {"one": samples.runs(53_000), "other": samples.runs(53_000, 51_000)}
        paths = [written(name, b"".join(stream)) for name, stream in streams.items()]
        self.check_long(paths)
        schema = written("their.binpb", SETS["all"][0])
        options = ["--schema", schema]
        theirs = [output("renumber", path, options=["--back", *options]) for path in paths]
        self.assertNotEqual(theirs[0], paths[0].read_bytes())
        self.check_long([written(f"their {path.name}", data) for path, data in zip(paths, theirs)], schema, options)


def cases():
    """The lines of conformance/numberings.cases, each as its words and its result."""
    lines = (VIEW.parent / "conformance" / "numberings.cases").read_text().splitlines()
    return [(question.split(), result) for question, _, result in (line.partition(" = ") for line in lines) if result]


def bytes_of(word):
    return b"" if word == "-" else bytes.fromhex(word)


# The sets of the cases, each with the renames, by their names.
SETS = {name: (bytes_of(made), bytes_of(renames).decode())
        for (kind, name, *words), result in cases() if kind == "set" and result == "ok"
        for renames, made in [words]}


class Schemas(OpenerTest):
    """Streams at the field numbers of a schema. Those of write_numbering have a field that only the schema has."""

    schema = ("their.binpb", write_numbering.descriptor_set())

    def items(self, side=0):
        """The items by the protocol, without what counts bytes."""
        found = [json.loads(line.split("\t")[0]) for line in self.lines(side).split("\n")]
        return [{name: value for name, value in item.items() if name not in ("offset", "length")} for item in found]

    def check_lines(self, theirs, made, version=8):
        """The lines by the schema mean what journal dump prints by it, with the offsets and lengths of the file."""
        found = [json.loads(line.split("\t")[-1]) for line in self.lines().split("\n")]
        wanted = printed("dump", written("theirs", theirs), version=version, options=["--schema", made])
        self.assertEqual(found, [json.loads(line) for line in wanted.split("\n")])

    def test_streams_of_the_cases(self):
        streams = [(*words[2:], result) for words, result in cases() if words[:2] == ["stream", "read"]]
        streams = [(name, version, *map(bytes_of, both)) for name, version, *both in streams if len(both[1]) > 20]
        self.assertGreater(len(streams), 2)
        for name, version, theirs, ours in streams:
            schema = ("their.binpb", SETS[name][0])
            self.drop(schema, ("theirs", theirs), version=version)
            found = self.items()
            self.check_lines(theirs, written(*schema), version)
            self.assertEqual(self.value("[about.journals[0].bytes, about.schema]"), [len(theirs), "their.binpb"])
            self.drop(("ours", ours), version=version)
            self.assertEqual(found, self.items())

    def test_what_only_the_schema_has(self):
        theirs = write_numbering.THEIRS + b"\x04"
        self.drop(("theirs", theirs), self.schema)
        self.assertEqual(self.items()[0]["message"], {"key": "YQ==", "value": {"content": "MQ=="}, "name": "n"})
        self.check_lines(theirs, written(*self.schema))
        self.assertIn("value.contentTypepathcopyt", self.text("#detail"))
        self.assertIn('"contentType":"t"', self.value("journals[0].items[0].line"))
        self.search("is:command t")
        self.assertEqual(self.rows(), 1)

    def test_fields_of_the_schema_are_not_compared(self):
        theirs = write_numbering.THEIRS
        self.drop(self.schema, ("one", theirs), ("other", theirs.replace(b"\x01t", b"\x01u")))
        self.assertEqual(self.text("#sentence"), "The journals are the same: 1 command.")
        self.assertIn("value.contentTypediffers, not compared", self.text("#detail"))
        self.drop(self.schema, ("one", theirs), ("other", theirs.replace(b"\x01a", b"\x01b")))
        self.assertIn("The journals part at command 0, SetStateCommand", self.text("#sentence"))

    def test_a_malformed_payload(self):
        # at the protocol's numbers it would be well-formed
        payload = bytes.fromhex("f20101 00")
        good, bad = write_numbering.THEIRS, raw_frame(0x0403, payload)
        self.drop(self.schema, ("theirs", good + bad + good))
        kinds = [item.get("malformed") for item in self.items()]
        self.assertEqual(kinds, [None, True, None, None])
        self.check_lines(good + bad + good, written(*self.schema))
        self.search("is:malformed")
        self.assertEqual(self.rows(), 1)
        self.assertIn("the payload is not well-formed", self.selected())
        self.assertIn("f2 01 01 00", self.text("#detail"))
        for streams, side in (((good + bad, good + good), "recorded"), ((good + good, good + bad), "replayed"),
                              ((good + bad, good + bad), "recorded")):
            self.drop(self.schema, *zip(("one", "other"), streams))
            self.assertIn(f"There is no verdict: the {side} command 1 is malformed.", self.text("#sentence"))
        # of another item it changes no verdict
        other = raw_frame(0x8011, b"\x0a")
        for last, said in ((good, "The journals are the same: 2 commands."), (b"", "The replayed journal ends before")):
            self.drop(self.schema, ("one", good + other + good), ("other", good + other + last))
            self.assertIn(said, self.text("#sentence"))
        # one that is malformed by a field that only the schema has
        text = raw_frame(0x0403, bytes.fromhex("1a0161 f20103 1201ff"))
        self.drop(self.schema, ("theirs", text))
        self.check_lines(text, written(*self.schema))
        self.assertIn("the payload is not well-formed", self.text("#rows"))

    def test_sets_that_are_rejected(self):
        stream = written("theirs", write_numbering.THEIRS)
        taken = 0
        for words, result in cases():
            if words[:2] != ["set", "-"] or words[2].startswith("ff"):
                continue
            kind, text = result.split()
            taken += 1
            schema = written("their.binpb", bytes_of(words[3]))
            self.choose(stream, schema=schema, renames=bytes_of(words[2]).decode())
            said = bytes_of(text).decode()
            self.assertEqual(self.text("#opener-says"), f"their.binpb: {said}" if kind == "no_set" else said)
        self.assertGreater(taken, 5)

    def test_renames(self):
        made, renames = SETS["few"]
        lines = [(words, result) for words, result in cases() if words[:3] == ["read", "few", "SleepCommandMessage"]]
        words, result = next(line for line in lines if line[1] not in ("-", "malformed"))
        stream = written("theirs", raw_frame(0x040C, bytes_of(words[3])))
        self.choose(stream, schema=written("their.binpb", made), renames=f" {renames} ")
        found = self.items()
        self.drop(("ours", raw_frame(0x040C, bytes_of(result))))
        self.assertEqual(found, self.items())

    def test_one_after_the_other(self):
        browser.load(PAGE)
        self.drop_more(self.schema)
        browser.wait(OPENED)
        self.assertEqual(self.text("#opener-says"), "their.binpb is the schema. Now the stream, or two.")
        self.drop_more(("theirs", write_numbering.THEIRS))
        browser.wait("document.body.dataset.ready === 'true'")
        self.assertEqual(self.items()[0]["message"]["name"], "n")

    def test_dropped_on_a_field(self):
        # by its first byte it would be a schema
        browser.load(PAGE)
        self.drop_more(("odd", raw_frame(0x0A00, b"") + raw_frame(3, b"")), place="#recorded")
        self.drop_more(("their.schema", self.schema[1]), place="label:has(#schema)")
        self.assertEqual(self.text("#opener-says"), "")
        self.show()
        self.assertEqual([item.get("type") for item in self.items()], ["CustomEntry(2560)", "End", None])
        self.assertEqual(self.value("about.schema"), "their.schema")
