"""The page in a headless Chromium: what moved between two journals, from the sentence to the cause, by mouse and keys;
and the overview, trees of JSON, the state, the filter's words, the address and what is copied."""
import json

from support import STREAMS, WORK, PageTest, make_page, the_browser, written

import filter_cases
import samples
from samples import as_json, frame

browser = None


def setUpModule():
    global browser
    browser = the_browser()


def runs(names, first=1):
    """A journal of runs of these names, each with its completion, whose ids are counted."""
    return b"".join(
        frame("RunCommand", name=name, result_completion_id=number)
        + frame("RunCompletionNotification", completion_id=number, value={"content": b"1"})
        for number, name in enumerate(names, first)
    )


def pair(recorded, replayed):
    return written("recorded", recorded), written("replayed", replayed)


class Sentences(PageTest):
    def sentence(self, recorded, replayed, *words):
        self.open(*pair(recorded, replayed), *words)
        return self.text("#sentence").removesuffix(" Next n")

    def test_one_command_more(self):
        said = self.sentence(*samples.audited())
        self.assertEqual(
            said,
            "The replay has one command more, SetStateCommand key other, before command 49; the 49 after "
            "it are the same.",
        )
        self.assertIn("own reading of the dump, and not proved", self.text("#reading"))
        self.assertEqual(self.text("#legend"), "= 98 the same+ 1 inserted")

    def test_one_command_less(self):
        said = self.sentence(*reversed(samples.audited()))
        self.assertEqual(
            said,
            "The replay lacks one command, SetStateCommand key other, which is command 49 of the recorded "
            "journal; the 49 after it are the same.",
        )

    def test_several_commands(self):
        same = samples.steps(4)
        more = samples.steps(3, first=100)
        for recorded, replayed, wanted in (
            (
                [*same],
                [same[0], *more, *same[1:]],
                "The replay has 3 commands more, SetStateCommand key step 100 to "
                "SetStateCommand key step 102, before command 1; the 3 after it are the same.",
            ),
            (
                [same[0], *more[:2], *same[1:]],
                [*same],
                "The replay lacks 2 commands, SetStateCommand key step 100 and SetStateCommand key step 101, which are "
                "the commands 1 to 2 of the recorded journal; the 3 after it are the same.",
            ),
            (
                [*same, *more],
                [*same],
                "The replayed journal ends before command 4, where the recorded one has SetStateCommand "
                "key step 100 and 2 more.",
            ),
            (
                [*same[:3]],
                [*same[:3], *more[:1]],
                "The recorded journal ends before command 3, where the replayed one has "
                "SetStateCommand key step 100.",
            ),
            (
                [more[0], *same],
                [more[1], *same],
                "The journals part at command 0, SetStateCommand: recorded is key step 100, "
                "replayed is key step 101; the 4 after it are the same.",
            ),
            (
                [*more[:2], same[0]],
                [more[2], same[1], same[0]],
                "The journals part at command 0, SetStateCommand: recorded is key step 100, replayed is key step 102, "
                "and the one after it differ too; the one after it is the same.",
            ),
            ([*same], [*same], "The journals are the same: 4 commands."),
        ):
            with self.subTest(wanted=wanted):
                self.assertEqual(self.sentence(b"".join(recorded), b"".join(replayed)), wanted)

    def test_what_differs_may_be_past_what_is_said(self):
        values = [{"content": b"x" * 1000 + end} for end in (b"a", b"b")]
        said = self.sentence(*(frame("SetStateCommand", key=b"k", value=value) for value in values))
        self.assertEqual(said, "The journals part at command 0, SetStateCommand key k, which differs.")
        self.assertEqual(self.value("document.querySelectorAll('tr.differs mark').length"), 2)

    def test_ids_that_moved_are_no_difference(self):
        names = [f"step {number}" for number in range(8)]
        said = self.sentence(runs(names), runs([*names[:3], "audit", *names[3:]]))
        self.assertEqual(
            said,
            "The replay has one command more, RunCommand audit, before command 3; the 5 after it differ in "
            "their ids alone.",
        )
        # a completion belongs to that of the command that its own belongs to
        cells = "rows.map((row) => row.map((item) => item && item.number))"
        self.assertEqual(self.value(cells)[4:10], [[4, 4], [5, 5], [None, 6], [None, 7], [6, 8], [7, 9]])
        self.search("is:ids")
        self.assertEqual(self.rows(), 5)

    def test_ids_alone(self):
        said = self.sentence(runs(["a", "b", "c"]), runs(["a", "b", "c"], first=2))
        self.assertEqual(
            said,
            "The journals part at command 0, RunCommand a, which differs in its ids alone, and the 2 after it "
            "differ too.",
        )

    def test_payloads_that_are_ignored(self):
        streams = [frame("SetStateCommand", key=b"k", value={"content": value}) for value in (b"1", b"2")]
        self.assertEqual(self.sentence(*streams, "--ignore-payloads"), "The journals are the same: 1 command.")
        self.assertIn("differs, not compared", self.text("#detail"))


class Alignments(PageTest):
    def page(self, recorded, replayed, verdict=None, script=None):
        """Opens a page of two dumps, with a verdict and a script as if they were from journal diff."""
        reader = make_page.dumps.Reader(make_page.messages_of(8))
        journals = []
        for name, items in (("recorded", recorded), ("replayed", replayed)):
            lines = [json.dumps({"offset": 11 * place, "code": 0x0411, "length": 3, **item}).encode()
                     for place, item in enumerate(items)]
            kept = make_page.dumps.Lines(1 << 20)
            journals.append(kept.journal(**make_page.dumps.read_dump(lines, name, reader, kept)))
        path = WORK / "aligned.html"
        path.write_text(make_page.page(journals, verdict, 8, False, script))
        browser.open(path)

    def run_of(self, name, number=1):
        return {"type": "RunCommand", "message": {"name": name, "resultCompletionId": number}}

    def pairs(self):
        return self.value(
            "alignment.steps.map(({ kind, pair }) => [kind, ...pair.map((item) => item && item.command)])"
        )

    def test_as_many_equals_as_there_can_be(self):
        self.page([], [])
        wrong = self.value("""(() => {
            let seed = 88172645;
            const random = (end) => (seed = (seed * 1103515245 + 12345) % 2147483648) % end;
            const list = () => Int32Array.from({ length: random(14) }, () => random(4));
            const most = (left, right) => {  // the longest common subsequence, by a table
                let row = new Array(right.length + 1).fill(0);
                for (const one of left) {
                    const next = [0];
                    right.forEach((other, place) => next.push(
                        one === other ? row[place] + 1 : Math.max(row[place + 1], next[place])));
                    row = next;
                }
                return row.at(-1);
            };
            let wrong = 0;
            for (let count = 0; count < 20000; count++) {
                const [left, right] = [list(), list()];
                const equals = equalPlaces(left, right);
                const found = [...equals.keys()].filter((place) => equals[place] >= 0);
                const isRight = found.length === most(left, right) &&
                    found.every((place) => left[place] === right[equals[place]]) &&
                    found.every((place, index) => index === 0 || equals[found[index - 1]] < equals[place]);
                if (!isRight) wrong++;
            }
            return wrong; })()""")
        self.assertEqual(wrong, 0)

    def test_too_many_without_an_equal(self):
        self.page(*([self.run_of(f"{side} {number}") for number in range(1100)] for side in "ab"))
        self.assertIn("by their indices, since too many have no equal", self.text("#reading"))
        self.assertIn("recorded is a 0, replayed is b 0, and the 1,099 after it differ too", self.text("#sentence"))

    def test_journal_diff_is_believed(self):
        commands = [self.run_of(name) for name in "abc"]
        for verdict, disagrees in (
            ({"kind": "differs", "index": 1, "text": "command 1: x"}, False),
            ({"kind": "differs", "index": 2, "text": "command 2: x"}, True),
            ({"kind": "same", "index": 3, "text": "same, 3 commands"}, True),
            (
                {"kind": "recorded malformed", "index": 1, "text": "journal diff: the recorded command 1 is malformed"},
                False,
            ),
        ):
            with self.subTest(verdict=verdict):
                self.page(commands, [commands[0], commands[2]], verdict)
                self.assertEqual("does not agree" in self.text("#reading"), disagrees)

    def test_the_script_of_journal_diff_is_taken(self):
        commands = [self.run_of(name) for name in "aab"]
        # which of two equal commands is removed only the script says
        self.page(commands, commands[1:], None, [{"change": "removed", "recorded": 0, "replayed": 0}])
        self.assertEqual(self.pairs(), [["removed", 0, None], ["same", 1, 0], ["same", 2, 1]])
        self.assertIn("is what journal diff says", self.text("#reading"))
        self.page(commands, commands[1:])
        self.assertEqual(self.pairs(), [["same", 0, 0], ["removed", 1, None], ["same", 2, 1]])
        self.page(commands[:2], [commands[0]] * 3, None, [{"change": "inserted", "recorded": 0, "replayed": 0}])
        self.assertEqual(self.pairs(), [["inserted", None, 0], ["same", 0, 1], ["same", 1, 2]])

    def test_steps_within_what_the_script_says_differs(self):
        recorded = [self.run_of("a", 1), self.run_of("b", 2)]
        replayed = [self.run_of("x", 1), self.run_of("a", 2), self.run_of("b", 3)]
        script = [
            {"change": "changed", "recorded": 0, "replayed": 0},
            {"change": "changed", "recorded": 1, "replayed": 1},
            {"change": "inserted", "recorded": 2, "replayed": 2},
        ]
        self.page(recorded, replayed, None, script)
        self.assertEqual(self.pairs(), [["inserted", None, 0], ["ids", 0, 1], ["ids", 1, 2]])

    def test_without_payloads_no_two_commands_are_the_same(self):
        self.page([{"type": "RunCommand"}], [self.run_of("a")])
        self.assertEqual(self.text("#sentence"), "The types of the commands are the same: 1 command.")
        self.assertIn("there is no verdict of journal diff", self.text("#reading"))
        self.assertIn("of 1 command the payload is not here", self.text("#reading"))
        self.assertIn("the dump has no payloads", self.selected())
        self.assertEqual(self.pairs(), [["unseen", 0, 0]])
        self.assertEqual(self.value("document.querySelectorAll('tr.differs, #verdict.same').length"), 0)
        sleep = {"type": "SleepCommand", "code": 0x040C}
        self.page([{"type": "RunCommand"}] * 2, [{"type": "RunCommand"}, sleep, {"type": "RunCommand"}])
        self.assertIn(
            "The replay has one command more, SleepCommand the dump has no payloads, before command 1; after it "
            "one is of one type.",
            self.text("#sentence"),
        )

    def test_an_end_that_the_page_has_not(self):
        same = b"".join(samples.steps(10))
        self.open(written("whole", same), written("notified", frame("End") * 4 + same), "--items", "16")
        kinds = [kind for kind, *_ in self.pairs()]
        self.assertEqual(kinds, ["same"] * 4 + ["beyond"] * 4)

    def test_notices_of_a_dump(self):
        lines = (STREAMS / "replay.dump").read_text().splitlines()
        self.open(written("part.jsonl", "\n".join([lines[0], lines[2]]).encode()))
        self.assertIn("part.jsonl has no last line", self.text("#notice"))
        self.assertIn("part.jsonl leaves items out", self.text("#notice"))


class Overview(PageTest):
    def place(self, row):
        """The middle of a row in the strip, and the middle of its lanes."""
        return self.value(f"""(() => {{ const box = strip.getBoundingClientRect();
            return [box.left + placeToX({row} + 0.5), box.top + laneTop(0) + LANE]; }})()""")

    def colors(self, *places):
        """The colors of the strip at rows of lanes."""
        return self.value(f"""(() => {{ drawNow(); const ratio = devicePixelRatio;
            const {{ data }} = strip.getContext("2d").getImageData(0, 0, strip.width, strip.height);
            return {json.dumps(places)}.map(([row, side]) => {{
                const [x, y] = [placeToX(row + 0.5) * ratio, (laneTop(side) + LANE / 2) * ratio].map(Math.round);
                return Array.from(data.slice(4 * (y * strip.width + x), 4 * (y * strip.width + x) + 4)); }}); }})()""")

    def amount(self):
        return self.value("view.to - view.from")

    def setUp(self):
        self.open(*pair(*samples.audited()))
        browser.press("g")

    def test_a_gap_and_the_color_of_what_moved(self):
        colors = self.colors((49, 0), (49, 1), (48, 0), (48, 1))
        self.assertEqual(colors, [[0, 0, 0, 0], [176, 75, 0, 255], [13, 122, 95, 255], [13, 122, 95, 255]])

    def test_a_click_goes_to_a_row(self):
        browser.click(*self.place(49))
        browser.wait("selected === 49")
        self.assertIn("not recorded", self.selected())
        self.assertIn("command 49, SetStateCommand, key other · value audit, inserted", self.text("#strip-says"))
        browser.click(*self.place(98))
        browser.wait("selected === 98")

    def test_wheel_keys_buttons_and_drag(self):
        whole = self.amount()
        self.assertEqual(whole, 99)
        browser.wheel(*self.place(49), -500)
        browser.wait("view.to - view.from < 50")
        self.assertTrue(self.value("view.from < 49 && view.to > 50"))
        before = self.value("view.from")
        x, y = self.place(49)
        browser.drag(x, y, x + 200)
        browser.wait(f"view.from < {before} - 2")
        self.assertEqual(self.value("selected"), 0)
        browser.press("0")
        self.assertEqual(self.amount(), whole)
        browser.press("+")
        self.assertEqual(self.amount(), whole / 2)
        browser.click_on("byId('nearer')")
        self.assertEqual(self.amount(), whole / 4)
        browser.press("-", "-", "-")
        self.assertEqual((self.amount(), self.value("byId('whole').disabled")), (whole, True))
        browser.press(*"++++++")
        self.assertEqual(self.amount(), 8)
        # the strip follows the selected row
        browser.press("G")
        self.assertTrue(self.value("view.to === rows.length"))

    def test_what_is_filtered_is_pale(self):
        self.search("other")
        here, beside = self.colors((49, 1), (48, 1))
        self.assertEqual(here[3], 255)
        self.assertLess(beside[3], 100)

    def test_arcs_lead_from_commands_to_completions(self):
        samples.write_orders(WORK)
        self.open(WORK / "orders_recorded")
        self.assertEqual(self.value("Array.from(arcRows[0])"), [3, 6, 8, 9, 8, 12])

    def test_a_journal_without_rows(self):
        self.open(written("empty", b""))
        browser.click_on("strip")
        browser.press(*"+-0")
        self.assertEqual(self.text("#strip-says"), "")

    def test_it_is_drawn_in_few_steps(self):
        items = [frame("RunCommand", result_completion_id=1, name="a")] * 50_000
        lines = [json.dumps({"offset": 11 * place, "type": "RunCommand", "code": 0x0411, "length": 3,
                             "message": {"resultCompletionId": place}}) for place in range(len(items))]
        self.open(written("many.jsonl", "\n".join(lines).encode()))
        steps = """(() => { const [top, place] = [topPlace, CanvasRenderingContext2D.prototype];
            const { fillRect } = place;
            let [looks, fills] = [0, 0];
            topPlace = (codes, first, end) => { looks += end - first; return top(codes, first, end); };
            place.fillRect = function (...box) { fills++; fillRect.apply(this, box); };
            drawNow();
            [topPlace, place.fillRect] = [top, fillRect];
            return [looks, fills, rows.length, Math.ceil(laneWidth)]; })()"""
        looks, fills, count, columns = self.value(steps)
        # each row is looked at once, and a rectangle is drawn for each column of pixels
        self.assertLessEqual(abs(looks - count), columns)
        self.assertTrue(0 < fills <= columns, fills)


ROWS = 190_000  # that are taller than the list may be


class Tall(PageTest):
    """A list of more rows than a browser places exactly: rows go by faster than it is scrolled."""

    def setUp(self):
        frames = [json.dumps({"offset": 8 * place, "type": "End", "code": 3, "length": 0, "message": {}})
                  for place in range(ROWS)]
        frames.append(json.dumps({"offset": 8 * ROWS, "rest": 0}))
        self.open(written("tall.jsonl", "\n".join(frames).encode()), "--items", "1000000")

    def in_sight(self):
        """The rows that are in sight, if they are one after the other."""
        return self.value("""(() => { const area = list.getBoundingClientRect();
            const rows = [...document.querySelectorAll('.row')]
                .map((row) => [row.getBoundingClientRect(), Number(row.dataset.row)])
                .filter(([box]) => box.top >= area.top - 3 && box.bottom <= area.bottom + 3)
                .sort(([one], [other]) => one.top - other.top);
            const isOrderly = rows.every(([box, place], index) => index === 0 ||
                (place === rows[index - 1][1] + 1 && Math.abs(box.top - rows[index - 1][0].bottom) < 1));
            return isOrderly ? rows.map(([, place]) => place) : rows; })()""")

    def test_every_row_is_reached(self):
        self.assertEqual(self.in_sight()[0], 0)
        browser.press("G")
        self.assertEqual(self.in_sight()[-1], ROWS - 1)
        browser.press(*"k" * 40)
        self.assertIn(ROWS - 41, self.in_sight())
        for part in (0.25, 0.5, 1):
            self.value(f"list.scrollTop = {part} * (list.scrollHeight - list.clientHeight)")
            middle = int(part * (ROWS - 15))
            browser.wait(f"document.getElementById('row-{middle}') !== null")
            self.assertAlmostEqual(self.in_sight()[0], middle, delta=20)
        browser.press("g")
        self.assertEqual(self.in_sight()[0], 0)


class Trees(PageTest):
    def compared(self, recorded, replayed):
        """What is marked in the trees of two values: the text of each line of a node that differs, by sides."""
        values = [value if isinstance(value, bytes) else as_json(value) for value in (recorded, replayed)]
        self.open(*pair(*(frame("SetStateCommand", key=b"key", value={"content": value}) for value in values)))
        return self.value("""[...document.querySelectorAll('tr.differs td')].map((cell) =>
            [...cell.querySelectorAll('.changed, .only')].map((line) => line.textContent.replaceAll(/[▾▸]/g, '')))""")

    def test_members_that_differ(self):
        self.assertEqual(
            self.compared({"a": 1, "b": {"c": "x", "d": [1]}, "e": 0}, {"e": 0, "b": {"c": "y", "d": [1]}, "f": None}),
            [['±"a": 1', '≠"c": "x"'], ['≠"c": "y"', '±"f": null']])
        self.assertEqual(self.compared({"a": {}}, {"a": 1}), [['≠"a": {}'], ['≠"a": 1']])
        self.assertEqual(self.compared(b'{"a":1,"a":2}', b'{"a":1,"a":3}'), [['≠"a": 2'], ['≠"a": 3']])

    def test_elements_are_aligned(self):
        self.assertEqual(self.compared([1, 2, 3, 4], [1, 3, 9, 4]), [["±1: 2"], ["±2: 9"]])
        self.assertEqual(self.compared([[1], 2], [[5], 2]), [["≠0: 1"], ["≠0: 5"]])
        self.assertEqual(self.compared(b'[{"a":1,"b":2},9]', b'[5,{"b":2,"a":1}]'), [["±1: 9"], ["±0: 5"]])

    def test_what_differs_far_into_a_list_is_in_sight(self):
        lists = [[{"n": number} for number in range(5000)] for _ in range(2)]
        lists[1][4000]["n"] = "other"
        self.assertEqual(self.compared(*lists), [['≠"n": 4000'], ['≠"n": "other"']])
        self.assertLess(self.value("document.querySelectorAll('.member').length"), 50)
        self.assertIn("3,999 elements more", self.text("tr.differs td"))

    def test_members_in_another_order_are_shown_as_they_are(self):
        self.assertEqual(self.compared(b'{"a":1,"b":2}', b'{"b":2,"a":1}'), [[], []])
        self.assertEqual(self.value("document.querySelectorAll('tr.differs mark').length"), 2)

    def test_the_part_of_a_text_that_differs(self):
        self.compared({"card": "4242"}, {"card": "4243"})
        self.assertEqual(
            self.value("[...document.querySelectorAll('mark')].map((mark) => mark.textContent)"), ["2", "3"]
        )

    def test_folding(self):
        self.open(written("tree", frame("InputCommand", value={"content": as_json({"a": {"b": [1, 2]}, "c": "d"})})))
        fold = "document.querySelector('.tree .fold[aria-expanded=true]')"
        self.assertEqual(self.value("document.querySelectorAll('.member').length"), 6)
        browser.click_on(fold)
        self.assertEqual(self.value("document.querySelectorAll('.member').length"), 1)
        self.assertIn("{ 2 members }", self.text(".tree"))
        browser.click_on("document.querySelector('.tree .fold')")
        self.assertEqual(self.value("document.querySelectorAll('.member').length"), 6)

    def test_many_members_come_when_they_are_wanted(self):
        self.open(written("list", frame("InputCommand", value={"content": as_json(list(range(250)))})))
        members = "document.querySelectorAll('.member').length"
        self.assertEqual(self.value(members), 101)
        browser.click_on("document.querySelector('.tree .more')")
        self.assertEqual(self.value(members), 201)
        browser.click_on("document.querySelector('.tree .more')")
        self.assertEqual((self.value(members), self.value("document.querySelector('.tree .more').hidden")), (251, True))

    def test_the_path_of_a_member(self):
        value = {"items": [{"sku": "tea"}], "a b": 1}
        self.open(written("paths", frame("InputCommand", value={"content": as_json(value)})))
        for key, path in (("sku", ".items[0].sku"), ("a b", '.["a b"]')):
            browser.click_on(f"""[...document.querySelectorAll('.key')].find((key) => key.textContent === '"{key}"')""")
            self.assertEqual(self.text(".where code"), path)

    def test_as_text(self):
        text = '{"a": [1,2]}'
        self.open(written("text", frame("InputCommand", value={"content": text.encode()})))
        browser.click_on("document.querySelector('.payload .copy')")
        self.assertEqual(self.value("document.querySelector('.payload pre').textContent"), text)
        browser.click_on("document.querySelector('.payload .copy')")
        self.assertEqual(self.value("document.querySelectorAll('.tree').length"), 1)


class Values(PageTest):
    def test_of_a_long_value_the_beginning_is_shown(self):
        content = "é".encode() * 2_000_000
        changed = content[:-1] + b"\xaa"
        self.open(
            *pair(*(frame("SetStateCommand", key=b"k", value={"content": value}) for value in (content, changed)))
        )
        self.assertIn("text, the first 65,532 of 4,000,000 bytes", self.text("tr.differs"))
        self.assertIn("beginning", self.text("tr.differs"))
        self.assertIn("copy the recorded shortened line", self.text("#detail h2"))
        self.assertIn("which differs", self.text("#sentence"))

    def test_many_fields_come_when_they_are_wanted(self):
        entries = [{"key": b"key %d" % number, "value": b"v"} for number in range(500)]
        self.open(written("state", frame("Start", state_map=entries)))
        fields = "document.querySelectorAll('#detail tbody th').length"
        before = self.value(fields)
        self.assertLess(before, 320)
        self.assertIn("of 1,000 fields 700 are not shown", self.text("#detail"))
        browser.click_on("document.querySelector('#detail td .more')")
        self.assertEqual(self.value(fields), before + 300)

    def test_texts_of_hidden_characters_unfold(self):
        self.open(written("hidden", frame("InputCommand", value={"content": "a\u200b".encode() * 100_000})))
        browser.click_on("document.querySelector('.payload .more')")
        self.assertGreater(self.value("document.querySelectorAll('.control').length"), 20_000)

    def test_keys_that_differ_in_one_character_look_different(self):
        keys = (
            *("kk", "k k", "k  k", "k\u00a0k", "k\tk", "k\nk", "k\u3164k", "k\u00adk", "k\u061ck", "k\U000e0041k"),
            *("k\ufeffk", "kk ", " kk", "k\u2800k", "k\ue000k", "k\u2003k"),
        )
        self.open(written("keys", b"".join(frame("ClearStateCommand", key=key.encode()) for key in keys)))
        shown = self.value("[...document.querySelectorAll('.row .text')].map((text) => text.textContent)")
        self.assertEqual(len(set(shown)), len(keys))
        self.assertEqual(shown[3], "key k\\u00a0k")
        self.assertEqual(self.value("getComputedStyle(document.querySelector('.row .text')).whiteSpace"), "pre")

    def test_one_future_within_another(self):
        future = {"waiting_completions": [7]}
        for _ in range(97):
            future = {"nested_futures": [future], "combinator_type": 1}
        self.open(written("deep", frame("Suspension", awaiting_on=future)))
        self.assertIn("futures, combinator 1, of levels 1 to 98completion 7, open", self.text(".future"))
        inside = """(() => { const right = (node) => node.getBoundingClientRect().right;
            return right(document.querySelector('.future b')) < right(document.getElementById('detail')); })()"""
        self.assertTrue(self.value(inside))

    def test_a_deep_tree_of_futures_stays_in_its_column(self):
        future = {"waiting_completions": [1]}
        for number in range(60):
            future = {"waiting_completions": [number + 2], "nested_futures": [future], "combinator_type": 1}
        self.open(written("tree", frame("Suspension", awaiting_on=future)))
        rights = """[...document.querySelectorAll('.future b')].map((node) => node.getBoundingClientRect().right)"""
        self.assertEqual(self.value(f"{rights}.length"), 61)
        self.assertTrue(
            self.value(f"Math.max(...{rights}) < document.getElementById('detail').getBoundingClientRect().right")
        )

    def test_an_item_that_cannot_be_laid_out(self):
        self.open(STREAMS / "replay")
        self.assertIn("Start", self.text("#detail h2"))
        self.value("layoutOf = () => { throw new RangeError('Invalid string length'); }")
        browser.press("j")
        self.assertEqual(self.text("#detail h2"), "InputCommand")
        self.assertIn("cannot be laid out (RangeError: Invalid string length)", self.text("#detail"))
        self.assertIn('"content":"aW5wdXQ="', self.text("#detail pre"))


class States(PageTest):
    def state(self, rows_before):
        """The lines of the state after so many rows."""
        browser.press("g", *"j" * rows_before)
        return self.value("""[...document.querySelectorAll('.state tbody tr')].map((row) =>
            [...row.children].map((cell) => cell.textContent.trim()))""")

    def test_it_is_what_the_commands_leave(self):
        stream = b"".join([
            frame("Start", state_map=[{"key": b"a", "value": b"1"}]),
            frame("SetStateCommand", key=b"b", value={"content": b"2"}),
            frame("ClearStateCommand", key=b"a"),
            frame("SetStateCommand", key=b"a", value={"content": b"3"}),
            frame("ClearAllStateCommand"),
        ])
        self.open(written("state", stream))
        browser.click_on("document.querySelector('.state summary')")
        browser.wait("document.querySelectorAll('.state tbody tr').length > 0")
        for number, state in enumerate((
            [["a", "1 #0"]],
            [["a", "1 #0"], ["b", "2 #1"]],
            [["a", "cleared #2"], ["b", "2 #1"]],
            [["a", "3 #3"], ["b", "2 #1"]],
            [["a", "cleared #4"], ["b", "cleared #4"]],
        )):
            self.assertEqual(self.state(number), state)
        # and back
        self.assertEqual(self.state(1), [["a", "1 #0"], ["b", "2 #1"]])

    def test_of_two_journals_what_differs_is_first(self):
        self.open(*pair(*samples.audited()))
        browser.click_on("document.querySelector('.state summary')")
        browser.wait("document.querySelectorAll('.state tbody tr').length > 0")
        first = self.value("document.querySelector('.state tbody tr').textContent")
        self.assertIn("other—audit #49", first)
        self.assertEqual(self.value("document.querySelectorAll('.state tr.differs').length"), 1)


class Words(PageTest):
    def setUp(self):
        samples.write_orders(WORK)
        self.open(WORK / "orders_recorded")

    def test_phrases_negation_and_numbers(self):
        for text, count in (
            ('"card was"', 1),
            ('"was card"', 0),
            ('"the card', 1),
            ("is:command -type:Call", 7),
            ('-"card was"', 17),
            ("-is:command -is:notification -is:core", 0),
            ("cmd:4", 1),
            ("cmd:3-5", 3),
            ("cmd:>4", 4),
            ("cmd:>=4", 5),
            ("-cmd:>=0", 9),
            ("size:>100", 2),
            ("size:>0.1kB", 2),
            ("size:<=8", 1),
            ("size:>1mb", 0),
            ("item:0-2", 3),
            ("id:1", 4),
            ("offset:0", 1),
            ('type:"call" name:charge', 1),
            ("-", 18),
        ):
            with self.subTest(text=text):
                self.search(text)
                self.assertEqual(self.rows(), count)
                browser.press("Escape")

    def test_what_journal_show_finds(self):
        for stream, cases in filter_cases.cases():
            self.open(written("filtered", stream))
            for words, found in cases:
                with self.subTest(words=words):
                    self.value(f"(byId('text').value = {json.dumps(words)}, filter())")
                    shown = self.value("shown.map((place) => rows[place][0].number)")
                    self.assertEqual(shown, found)

    def test_words_that_mean_nothing(self):
        for text, said in filter_cases.WRONG:
            with self.subTest(text=text):
                self.search(text)
                self.assertEqual(self.text("#matches"), said)
                self.assertEqual(self.rows(), 18)
                browser.press("Escape")


class Addresses(PageTest):
    def setUp(self):
        samples.write_orders(WORK)
        self.open(WORK / "orders_recorded")

    def test_it_follows_the_selection_and_the_filter(self):
        browser.wait("location.hash === '#item-0'")
        browser.press(*"jjj")
        browser.wait("location.hash === '#item-3'")
        self.search('is:command "card"')
        browser.wait("location.hash === '#item-8?filter=is%3Acommand+%22card%22'")
        self.value("document.querySelector('input[value=CallCommand]').click()")
        browser.wait("location.hash.endsWith('&type=CallCommand')")
        browser.press("Escape")
        browser.wait("location.hash === '#item-8'")

    def test_a_copy_of_it_leads_to_the_same(self):
        self.open(
            WORK / "orders_recorded",
            place="#item-12?filter=is%3Anotification&type=CallCompletionNotification&direction=none",
        )
        self.assertEqual((self.rows(), self.value("selected")), (1, 12))
        self.assertEqual(self.value("byId('text').value"), "is:notification")
        self.assertTrue(self.value("document.querySelector('input[value=CallCompletionNotification]').checked"))

    def test_an_address_that_is_wrong(self):
        for place in (
            "#item-99",
            "#item-",
            "#replayed-1",
            "#%",
            "#?filter=%",
            "#item-1?type=<img src=x>",
            "#constructor-1",
        ):
            with self.subTest(place=place):
                self.open(WORK / "orders_recorded", place=place)
                self.assertGreaterEqual(self.value("selected"), 0)


class Copies(PageTest):
    def setUp(self):
        browser.allow_clipboard()

    def copied(self, label, place=0):
        button = (
            f"[...document.querySelectorAll('#detail .copy')].filter((one) => one.textContent === '{label}')[{place}]"
        )
        # seen as it changes, since a button says for about a second only that it has copied
        self.value(f"""(() => {{ const button = {button}; window.saying = new Promise((say) => {{
            new MutationObserver((_, changes) => {{ changes.disconnect(); say(button.textContent); }})
                .observe(button, {{ childList: true }}); }}); }})()""")
        browser.click_on(button)
        self.assertEqual(self.value("saying"), "copied")
        text = self.value("navigator.clipboard.readText()")
        browser.wait("[...document.querySelectorAll('.copy')].every((one) => one.textContent !== 'copied')")
        return text

    def test_value_path_and_line(self):
        value = as_json({"items": [{"sku": "tea"}]})
        self.open(written("copied", frame("InputCommand", name="Zoë", value={"content": value})))
        line = self.copied("copy the line")
        self.assertEqual(json.loads(line)["message"]["name"], "Zoë")
        self.assertEqual(line, self.value("journals[0].items[0].line"))
        self.assertEqual(self.copied("copy", 0), "Zoë")
        self.assertEqual(self.copied("copy", 1), value.decode())
        self.assertEqual(self.copied("path", 1), ".message.value.content")
        browser.click_on("""[...document.querySelectorAll('.key')].find((key) => key.textContent === '"sku"')""")
        self.assertEqual(self.copied("path", 2), ".message.value.content | @base64d | fromjson | .items[0].sku")
        self.assertEqual(self.copied("copy", 2), '"tea"')


class Explained(PageTest):
    """A replay that failed, from the sentence to the cause, by mouse and keys."""

    def test_from_the_sentence_to_the_cause(self):
        card = {"amount": 18.5, "card": {"number": "4242", "kind": "debit"}, "items": ["tea", "milk"]}
        other = {**card, "card": {"number": "4242", "kind": "credit"}, "items": ["tea", "sugar", "milk"]}

        def order(audit, parameter):
            names = ["reserve stock", *audit, "print label"]
            call = len(names) + 1
            return (frame("InputCommand") + runs(names)
                    + frame("CallCommand", service_name="payments", handler_name="charge", parameter=as_json(parameter),
                            invocation_id_notification_idx=call, result_completion_id=call + 1)
                    + frame("CallCompletionNotification", completion_id=call + 1, value={"content": b"true"})
                    + frame("OutputCommand", value={"content": b'"paid"'}))

        self.open(*pair(order([], card), order(["audit"], other)))
        # what is said first is what was inserted, and the page is there
        self.assertIn(
            "The replay has one command more, RunCommand audit, before command 2; after it one is the same, one is the "
            "same but for ids, and there is one more difference.",
            self.text("#sentence"),
        )
        self.assertIn("not recorded", self.selected())
        self.assertIn("audit", self.selected())
        # its completion belongs to it
        browser.press("Enter")
        browser.wait("rows[selected][1]?.dump.type === 'RunCompletionNotification'")
        browser.press("Enter")
        browser.wait("kindOfRow(selected) === 'inserted'")
        # the next difference, by the button next to the sentence
        browser.click_on("document.querySelector('#sentence button')")
        browser.wait("kindOfRow(selected) === 'changed'")
        self.assertIn("payments/charge", self.selected())
        lines = self.value("""[...document.querySelectorAll('tr.differs td')].map((cell) =>
            [...cell.querySelectorAll('.changed, .only')].map((line) => line.textContent))""")
        self.assertIn(['≠"kind": "debit"'], lines)
        self.assertIn(['≠"kind": "credit"', '±1: "sugar"'], lines)
        # the way to the member
        browser.click_on(
            """[...document.querySelectorAll('tr.differs .key')].findLast((key) => key.textContent === '"kind"')"""
        )
        self.assertEqual(self.text("tr.differs td:last-child .where code"), ".card.kind")
        # back by a click in the strip, and there again by a key
        browser.click(*self.value("""(() => { const box = strip.getBoundingClientRect();
            return [box.left + placeToX(differences[0].row + 0.5), box.top + laneTop(1) + 4]; })()"""))
        browser.wait("kindOfRow(selected) === 'inserted'")
        browser.press("n")
        browser.wait("kindOfRow(selected) === 'changed'")
        browser.press("n")
        browser.wait("kindOfRow(selected) === 'inserted'")
        # the filter leaves the two
        self.search("is:changed")
        self.assertEqual(self.rows(), 1)
        browser.press("Escape")
        browser.wait("location.hash.startsWith('#recorded-') || location.hash.startsWith('#replayed-')")
