"""The page in a headless browser: what it shows, by its keys, and what no payload can do to it."""
import re

from support import STREAMS, WORK, PageTest, the_browser, written

import samples
from samples import as_json, frame, raw_frame

HOSTILE = (
    "</script><img src=x onerror=hacked=1>",
    "<!--<script>hacked=1</script>",
    "<svg/onload=hacked=1>",
    "\"'><b onmouseover=hacked=1>&lt;i&gt;&amp;",
    "${hacked=1}`$(hacked=1)\\u003cscript>",
    "javascript:hacked=1",
    "]]>\r\n\t\u2028\u2029\ufeff",
    "\u202ereversed\u202c \u0000\u001b[31m",
)

browser = None


def setUpModule():
    global browser
    browser = the_browser()


def hostile_stream():
    """A journal in which every text, byte string and name is hostile."""
    frames = []
    for number, text in enumerate(HOSTILE):
        data = text.encode()
        frames += [
            frame("Start", id=data, debug_id=text, key=text, state_map=[{"key": data, "value": data}]),
            frame("InputCommand", name=text, headers=[{"key": text, "value": text}], value={"content": data}),
            frame("CallCommand", service_name=text, handler_name=text, parameter=data, key=text, name=text,
                  result_completion_id=number + 1),
            frame("CallCompletionNotification", completion_id=number + 1,
                  failure={"code": 500, "message": text, "metadata": [{"key": text, "value": text}]}),
            frame("SignalNotification", name=text, value={"content": data}),
            frame("Suspension", awaiting_on={"waiting_named_signals": [text]}),
            frame("Error", code=500, message=text, stacktrace=text, related_command_name=text),
            raw_frame(0xFC01, data),
            raw_frame(0x0403, b"\xff" + data),
        ]
    return b"".join(frames)


class Examples(PageTest):
    def test_every_stream_has_its_items(self):
        streams = [path for path in STREAMS.iterdir() if not path.suffix]
        self.assertGreater(len(streams), 5)
        for stream in streams:
            with self.subTest(stream=stream.name):
                lines = (STREAMS / f"{stream.name}.stdout").read_text().splitlines()
                self.open(stream)
                rest = int(lines[-1].removeprefix("rest "))
                self.assertEqual(self.rows(), len(lines) - (rest == 0))
                self.assertIn(f" {stream.stat().st_size:,} bytes", f" {self.text('#facts')}")
                self.assertEqual(self.value("document.title"), stream.name)

    def test_unknown_skipped_and_rest_are_shown_as_such(self):
        self.open(STREAMS / "unknown_type")
        self.assertIn("unknown 0x8", self.text("#row-0"))
        self.open(STREAMS / "unknown_type", "--protocol", "9")
        self.assertIn("skipped 0x8", self.text("#row-0"))
        self.assertIn("hex, 8 bytes", self.text("#detail"))
        self.open(STREAMS / "cut_short")
        browser.press("G")
        self.assertIn("8 bytes at the end that are in no item", self.selected())

    def test_an_empty_journal(self):
        self.open(written("empty", b""))
        self.assertEqual(self.rows(), 0)
        browser.press(*"jkgGnp", "Enter", "Escape")
        self.search("nothing")
        self.assertEqual(self.text("#facts"), "0 bytes0 items0 commandsprotocol version 8")

    def test_a_row_says_what_the_item_is(self):
        self.open(STREAMS / "replay")
        self.assertEqual(self.text("#row-1 .number"), "#1")
        self.assertEqual(self.text("#row-1 .type"), "InputCommand")
        self.assertEqual(self.text("#row-1 .index"), "cmd 0")
        self.assertEqual(self.text("#row-1 .text"), "value input")
        self.assertEqual(self.text("#row-1 .offset"), "@ 27")
        self.assertEqual(self.text("#row-1 .size"), "17 B")
        self.assertEqual(self.value("document.querySelector('#row-1 .type').classList.contains('command')"), True)

    def test_each_type_of_the_protocol(self):
        self.open(STREAMS.parent.parent / "crates" / "journal" / "stdin")
        count = self.rows()
        self.assertGreater(count, 100)
        for _ in range(count):
            browser.press("j")
        self.assertEqual(self.value("selected"), count - 1)


class Pairs(PageTest):
    def test_the_difference_is_said_marked_and_in_sight(self):
        self.open(STREAMS / "recorded", STREAMS / "replayed_other_handler")
        self.assertIn("The journals part at command 2, CallCommand: recorded is", self.text("#sentence"))
        self.assertEqual(self.text("#sentence .side-0"), "Greeter/greet")
        self.assertEqual(self.text("#sentence .side-1"), "Greeter/greet_all")
        self.assertIn("handler_name: greet != greet_all", self.text("#printed"))
        self.assertIn("≠", self.selected())
        self.assertEqual(self.value("document.querySelectorAll('.row.difference').length"), 1)
        marks = "[...document.querySelectorAll('.mark b')].map((mark) => mark.textContent)"
        self.assertEqual(self.value(marks), ["=", "=", "≠", "="])
        self.assertIn("; the one after it is the same.", self.text("#sentence"))
        self.assertIn("handlerName", self.text("tr.differs"))
        self.assertEqual(self.text("tr.differs td pre"), "greet")

    def test_the_sentence_says_the_first_thing_that_differs(self):
        self.open(STREAMS / "recorded", STREAMS / "replayed_other_payload")
        self.assertEqual([self.text(f"#sentence .side-{side}") for side in (0, 1)], ["value 1", "value 2"])

    def test_it_opens_at_a_difference_that_is_far_down(self):
        same = frame("ClearStateCommand", key=b"key") * 5000
        recorded = same + frame("SleepCommand", wake_up_time=1, result_completion_id=1) + same
        self.open(written("far", recorded), written("other", same + frame("RunCommand", result_completion_id=1)))
        self.assertIn("part at command 5,000: recorded is SleepCommand", self.text("#sentence"))
        self.assertIn("; after it the replayed journal ends before command 5,001.", self.text("#sentence"))
        self.assertIn("SleepCommand", self.selected())
        centred = """(() => { const row = document.querySelector('.row.difference').getBoundingClientRect();
            const list = document.getElementById('list').getBoundingClientRect();
            return Math.abs((row.top + row.bottom) - (list.top + list.bottom)) < row.height; })()"""
        self.assertTrue(self.value(centred))
        browser.press("g")
        self.assertIn("ClearStateCommand", self.selected())
        browser.press("n")
        self.assertIn("SleepCommand", self.selected())
        self.assertTrue(self.value(centred))

    def test_the_other_verdicts(self):
        recorded, payload = STREAMS / "recorded", STREAMS / "replayed_other_payload"
        first = written("first", recorded.read_bytes()[:17])
        malformed = written("malformed", recorded.read_bytes()[:17] + b"\x04\x03\0\0\0\0\0\x01\xff")
        for words, sentence in (
            ((recorded, recorded), "The journals are the same: 4 commands."),
            ((recorded, payload, "--ignore-payloads"), "The journals are the same: 4 commands."),
            ((recorded, first), "The replayed journal ends before command 1, where the recorded one has SetState"),
            ((first, recorded), "The recorded journal ends before command 1, where the replayed one has SetState"),
            ((recorded, malformed), "There is no verdict: the replayed command 1 is malformed."),
            ((recorded, written("empty", b"")), "The replayed journal ends before command 0"),
        ):
            with self.subTest(sentence=sentence):
                self.open(*words)
                self.assertIn(sentence, self.text("#sentence"))

    def test_items_between_commands_are_aligned_by_what_they_are(self):
        sleep, run = (frame(f"{name}CompletionNotification", completion_id=1) for name in ("Sleep", "Run"))
        left, right = sleep + run + frame("End"), run + frame("End") + sleep
        self.open(written("left", left), written("right", right))
        cells = self.value("rows.map((row) => row.map((item) => item && item.number))")
        self.assertEqual(cells, [[0, None], [1, 0], [2, 1], [None, 2]])


class Marks(PageTest):
    def marked(self, recorded, replayed):
        """What is marked in the first and in the second of two values."""
        streams = [frame("SetStateCommand", key=b"key", value={"content": value}) for value in (recorded, replayed)]
        self.open(*(written(f"marked{side}", stream) for side, stream in enumerate(streams)))
        return self.value("""[...document.querySelectorAll('tr.differs td')].map((cell) =>
            cell.querySelector('mark')?.textContent ?? '')""")

    def test_the_part_of_a_text_that_differs(self):
        self.assertEqual(self.marked(b"a charge now", b"a refund now"), ["charge", "refund"])
        self.assertEqual(self.marked(b"charge", b"chargeCard"), ["", "Card"])
        self.assertEqual(self.marked(b"aa", b"aaa"), ["", "a"])
        self.assertEqual(self.marked(b"\xff\x01\xff", b"\xff\x23\xff")[1].split(), ["23", "ff", ".#"])

    def test_of_two_types_nothing_but_the_type_is_marked(self):
        streams = [frame("RunCommand", name="one"), frame("SleepCommand", name="two")]
        self.open(*(written(f"type{side}", stream) for side, stream in enumerate(streams)))
        self.assertEqual(self.text("tr.differs"), "typeRunCommand 0x0411SleepCommand 0x040C")
        self.assertEqual(self.value("document.querySelectorAll('tr.differs, mark').length"), 1)

    def test_a_character_stays_whole(self):
        self.assertEqual(self.marked("\U0001f600".encode(), "\U0001f601".encode()), ["\U0001f600", "\U0001f601"])
        self.assertEqual(self.marked("\U0001f600".encode(), "\U0001fa00".encode()), ["\U0001f600", "\U0001fa00"])

    def test_json_that_differs_in_its_blanks(self):
        self.assertEqual(self.marked(b'{"a":1}', b'{"a": 1}'), ["", " "])
        self.assertIn("text, 7 bytes", self.text("tr.differs"))

    def test_a_difference_far_into_a_value_is_in_sight(self):
        texts = [b"x" * 50_000 + middle + b"y" * 50_000 for middle in (b"left", b"right")]
        self.assertEqual(self.marked(*texts), ["lef", "righ"])
        self.assertIn("(49,800 characters before)", self.text("tr.differs"))
        self.value("document.querySelector('tr.differs .more').click()")
        self.assertEqual(self.value("document.querySelector('tr.differs pre').textContent"), texts[0].decode())


class Joins(PageTest):
    def open_order(self):
        samples.write_orders(WORK)
        self.open(WORK / "orders_recorded")

    def test_a_command_and_its_completion_lead_to_each_other(self):
        self.open_order()
        self.assertEqual(self.text("#row-8 .link"), "→ #9, → #12")
        self.assertEqual(self.text("#row-12 .link"), "← command 4")
        browser.press(*"jjjjjjjj")
        self.assertIn("CallCommand", self.selected())
        self.value("[...document.querySelectorAll('#detail a')].find((link) => link.hash === '#item-12').click()")
        browser.wait("selected === 12")
        self.assertIn("requested by #8 CallCommand", self.text("#detail"))
        browser.press("Enter")
        browser.wait("selected === 8")
        browser.press("Enter")
        browser.wait("selected === 9")
        self.value("history.back()")
        browser.wait("selected === 8")

    def test_a_click_in_the_row_follows_and_selects(self):
        self.open_order()
        self.value("document.querySelector('#row-12 .link').click()")
        browser.wait("selected === 8")
        self.value("document.querySelector('#row-5 .text').click()")
        browser.wait("selected === 5")
        self.assertIn("completion 1", self.text("#detail"))
        self.assertIn("requested by #3 RunCommand", self.text("#detail"))
        self.assertIn("proposed by #4 ProposeRunCompletion", self.text("#detail"))

    def test_lines_from_commands_to_their_completions(self):
        self.open_order()
        ends = """[...document.querySelectorAll('.span')].map((span) => { const box = span.getBoundingClientRect();
            const right = list.getBoundingClientRect().right - 40;
            const row = (y) => Number(document.elementFromPoint(right, y).closest('.row').dataset.row);
            return [row(box.top), row(box.bottom)]; })"""
        self.assertEqual(sorted(self.value(ends)), [[3, 6], [8, 9], [8, 12]])
        self.assertEqual(self.value("document.querySelectorAll('.span.selected').length"), 0)
        self.value("select(8)")
        self.assertEqual(self.value("document.querySelectorAll('.span.selected').length"), 2)
        lefts = "[...document.querySelectorAll('.span.selected')].map((span) => span.getBoundingClientRect().left)"
        self.assertEqual(len(set(self.value(lefts))), 2)
        self.search("is:command")
        self.assertEqual(self.value("document.querySelectorAll('.span').length"), 0)

    def test_lines_in_one_lane_share_no_row(self):
        commands = b"".join(frame("RunCommand", result_completion_id=number) for number in range(1, 10))
        order = (5, 1, 9, 2, 8, 3, 7, 4, 6)
        completions = b"".join(frame("RunCompletionNotification", completion_id=number) for number in order)
        self.open(written("lanes", commands + completions))
        for spans in self.value("lanes"):
            self.assertTrue(all(one["to"] < other["from"] for one, other in zip(spans, spans[1:])))
        self.assertLessEqual(self.value("lanes.length"), 6)

    def test_a_wide_tree_is_shown_in_part(self):
        nested = [{"waiting_completions": [2 * number, 2 * number + 1]} for number in range(1, 2001)]
        self.open(
            written("wide", frame("Suspension", awaiting_on={"waiting_signals": [1, 2], "nested_futures": nested}))
        )
        self.assertEqual(self.value("document.querySelectorAll('.future li:not(.form)').length"), 1000)
        self.assertIn("and 1,667 more", self.text(".future"))

    def test_the_tree_of_a_suspension(self):
        self.open_order()
        self.value("select(11)")
        tree = self.text(".future")
        self.assertIn("future, combinator 1future, combinator 2completion 3 of #8 CallCommand, completed by #12", tree)
        self.assertIn("completion 4 of #10 SleepCommand, open", tree)
        self.assertIn("signal 17, completed by #13 SignalNotification", tree)
        self.assertEqual(self.value("document.querySelectorAll('.future .future').length"), 2)

    def test_a_suspension_before_version_7(self):
        stream = written("v6", raw_frame(1, samples.payload("SuspensionMessageV6", {"waiting_completions": [1, 2]})))
        self.open(stream, "--protocol", "6")
        self.assertIn("completion 1, completion 2", self.text("#row-0"))

    def test_a_completion_of_the_id_0(self):
        self.open(written("zero", frame("RunCommand", name="a") + frame("RunCompletionNotification")))
        self.assertEqual([self.text(f"#row-{row} .link") for row in (0, 1)], ["→ #1", "← command 0"])
        self.assertIn("completion 0completed by #1", self.text("#detail"))

    def test_an_open_command_and_a_completion_of_none(self):
        stream = frame("SleepCommand", result_completion_id=3) + frame("SleepCompletionNotification", completion_id=4)
        self.open(written("open", stream))
        self.assertEqual([self.text(f"#row-{row} .link") for row in (0, 1)], ["open", "no command"])
        self.assertIn("not completed in this journal", self.text("#detail"))

    def test_an_id_that_is_used_again(self):
        command = frame("SleepCommand", result_completion_id=1)
        completion = frame("SleepCompletionNotification", completion_id=1)
        suspension = frame("Suspension", awaiting_on={"waiting_completions": [1]})
        self.open(written("again", command + completion + command + suspension))
        self.assertEqual([self.text(f"#row-{row} .link") for row in (0, 1, 2)], ["→ #1", "← command 0", "open"])
        joined = []
        for row in range(3):
            self.value(f"select({row})")
            joined.append(self.text(".joined"))
        self.assertEqual(joined, [
            "completion 1completed by #1 SleepCompletionNotification",
            "completion 1requested by #0 SleepCommand",
            "completion 1awaited by #3 Suspensionnot completed in this journal",
        ])
        self.value("select(3)")
        self.assertIn("completion 1 of #2 SleepCommand, open", self.text(".future"))
        # it is completed a second time, and once more, which is of no command
        self.open(written("again", (command + completion) * 2 + completion))
        links = [self.text(f"#row-{row} .link") for row in range(5)]
        self.assertEqual(links, ["→ #1", "← command 0", "→ #3", "← command 1", "no command"])

    def test_an_error_leads_to_its_command(self):
        commands = frame("InputCommand") + frame("RunCommand", name="charge", result_completion_id=1)
        error = frame("Error", code=571, message="it differs", related_command_index=1, stacktrace="at charge")
        self.open(written("error", commands + error))
        self.assertIn("571: it differs", self.text("#row-2 .failure"))
        browser.press("n")
        self.assertIn("1: #1 RunCommand", self.text("#detail"))
        browser.press("Enter")
        browser.wait("selected === 1")

    def test_failures_are_red_with_code_and_message(self):
        self.open_order()
        browser.press("n")
        self.assertIn("402: the card was declined", self.selected())
        red = "getComputedStyle(document.querySelector('.row[aria-selected=true] .failure')).color"
        self.assertEqual(self.value(red), "rgb(179, 32, 47)")
        browser.press("n")
        self.assertIn("402: order 1042 was not paid", self.selected())
        browser.press("p")
        self.assertIn("the card was declined", self.selected())


class Payloads(PageTest):
    def shown(self, content):
        self.open(written("payload", frame("InputCommand", value={"content": content})))
        return self.value("document.querySelector('.payload .form').textContent"), self.value(
            "document.querySelector('.payload pre').textContent")

    def tree(self, content):
        """What a payload is, and the text of its tree without blanks."""
        self.open(written("payload", frame("InputCommand", value={"content": content})))
        tree = self.value("document.querySelector('.payload .tree').textContent")
        return self.value("document.querySelector('.payload .form').textContent"), re.sub(r"[▾▸\s]", "", tree)

    def test_text_json_and_hex(self):
        self.assertEqual(self.shown("Grüße\n".encode()), ("text, 8 bytes", "Grüße\n"))
        self.assertEqual(self.shown(b"\xff\x00AB"), ("hex, 4 bytes", f"000000  {'ff 00 41 42':23}  ..AB"))
        self.assertEqual(self.tree(b'{"a":[1,{}],"b":"x, {y}"}'), ("JSON, 25 bytes", '{"a":[0:11:{}]"b":"x,{y}"}'))

    def test_numbers_and_doubled_keys_of_json_stay_as_they_are(self):
        _, text = self.tree(b'{"a":12345678901234567890,"a":1.0e-7,"\\u0041":"\\""}')
        self.assertEqual(text, '{"a":12345678901234567890"a":1.0e-7"\\u0041":"\\""}')

    def test_json_of_many_levels(self):
        for levels in (20_000, 200_000):
            form, text = self.tree(b"[" * levels + b"1" + b"]" * levels)
            self.assertEqual(form, f"JSON, {2 * levels + 1:,} bytes")
            self.assertTrue(text.startswith("[0:[0:["))
            self.assertLess(len(text), 2000)
            self.value("document.querySelector('.tree .fold[aria-expanded=false]').click()")
            self.assertIn("level 41", self.text(".tree"))

    def test_what_only_looks_like_json_is_text(self):
        self.assertEqual(self.shown(b"{a}"), ("text, 3 bytes", "{a}"))

    def test_a_long_text_is_folded_and_unfolds(self):
        text = "x" * 5000
        _, folded = self.shown(text.encode())
        self.assertLess(len(folded), 2000)
        self.assertIn("characters are folded", self.text(".more"))
        self.value("document.querySelector('.payload .more').click()")
        self.assertEqual(self.value("document.querySelector('.payload pre').textContent"), text)
        self.assertTrue(self.value("document.querySelector('.payload .more').hidden"))

    def test_a_malformed_payload(self):
        self.open(written("malformed", raw_frame(0x0403, b"\xff")))
        self.assertIn("the payload is not well-formed", self.selected())
        self.assertIn("hex, 1 byte", self.text("#detail"))


class Hostile(PageTest):
    def test_texts_stay_texts(self):
        self.open(written("<img src=x onerror=hacked=1>", hostile_stream()))
        count = self.rows()
        self.assertEqual(count, 9 * len(HOSTILE))
        for _ in range(count):
            browser.press("j")
        self.unfold("#detail details")
        self.assertEqual(self.value("typeof hacked"), "undefined")
        self.assertEqual(self.value("document.querySelectorAll('img, b[onmouseover], svg:not(.bar svg)').length"), 0)
        self.assertEqual(self.value("document.querySelectorAll('body script').length"), 3)
        self.assertEqual(self.value("document.title"), "<img src=x onerror=hacked=1>")

    def test_trees_states_and_the_overview_of_hostile_texts(self):
        values = [as_json({text: {text: [text, side]} for text in HOSTILE}) for side in (0, 1)]
        streams = []
        for side, value in enumerate(values):
            frames = [frame("Start", state_map=[{"key": text.encode(), "value": text.encode()} for text in HOSTILE]),
                      *(frame("SetStateCommand", key=text.encode(), value={"content": value}) for text in HOSTILE),
                      frame("RunCommand", name=HOSTILE[side])]
            streams.append(written(f"<b>{side}", b"".join(frames)))
        self.open(*streams, place="#recorded-1?filter=<img src=x onerror=hacked=1>&type=<b>")
        browser.press("Escape", "g")
        self.unfold(".state")
        for _ in range(self.rows()):
            browser.press("j")
            self.value("document.querySelectorAll('.tree .key, .tree .fold').forEach((button) => button.click())")
            self.value("fill(byId('strip-says'), visible(stripText(selected), HIDDEN_IN_ROW))")
        self.assertEqual(self.value("typeof hacked"), "undefined")
        self.assertEqual(self.value("document.querySelectorAll('img, b[onmouseover], svg:not(.bar svg)').length"), 0)
        self.assertEqual(self.value("document.querySelectorAll('body script').length"), 4)

    def test_an_id_that_is_awaited_many_times(self):
        once = frame("AwaitingOn", awaiting_on={"waiting_completions": [1] * 20_000, "waiting_signals": [17]})
        self.open(written("often", once + frame("RunCommand", result_completion_id=1)))
        self.assertEqual(self.rows(), 2)
        browser.press("j")
        self.assertEqual(self.value("document.querySelectorAll('.row.related').length"), 1)

    def test_a_state_that_is_cleared_many_times(self):
        sets = [frame("SetStateCommand", key=b"%d" % key, value={"content": b"1"}) for key in range(20_000)]
        self.open(written("cleared", b"".join([*sets, *[frame("ClearAllStateCommand")] * 20_000])))
        self.unfold(".state")
        browser.press("G")
        self.assertIn("cleared #20000", self.text(".state table"))

    def test_a_payload_is_shown_as_it_is(self):
        for text in HOSTILE[:6]:
            self.open(written("hostile", frame("InputCommand", value={"content": text.encode()})))
            self.assertEqual(self.value("document.querySelector('.payload pre').textContent"), text)
            self.assertIn(text, self.value("document.querySelector('.row .text').textContent"))

    def test_hidden_characters_are_shown_by_their_numbers(self):
        self.open(
            written("hidden", frame("InputCommand", name="a\u202eb\u001b", value={"content": "k\ufeffk".encode()}))
        )
        self.assertIn("a\\u202eb\\u001b", self.text("#row-0 .text"))
        self.assertIn("k\\ufeffk", self.text("#row-0 .text"))

    def test_each_hidden_character(self):
        controls = [
            *range(0x20),
            *range(0x7F, 0xA0),
            0x61C,
            0x200E,
            0x200F,
            *range(0x2028, 0x202F),
            *range(0x2066, 0x206A),
        ]
        others = [
            0xA0,
            0xAD,
            0x34F,
            0x115F,
            0x180E,
            0x2003,
            0x200B,
            0x200D,
            0x2060,
            0x206A,
            0x2800,
            0x3000,
            0x3164,
            0xE000,
            0xFE0F,
            0xFEFF,
            0xFFF9,
            0xE0041,
        ]
        hidden = [chr(number) for number in [*controls, *others] if chr(number) not in "\t\n"]
        numbers = [f"\\u{ord(one):04x}" if ord(one) < 0x10000 else f"\\u{{{ord(one):x}}}" for one in hidden]
        # bytes with a control that no text has are shown in hex
        content = "".join(hidden[31:])
        self.assertEqual(hidden[31], "\x80")
        self.open(written("hidden", frame("InputCommand", name="<".join(hidden), value={"content": content.encode()})))
        shown = self.value(
            "document.getElementById('rows').textContent + document.getElementById('detail').textContent"
        )
        self.assertEqual([one for one in hidden if one in shown], [])
        self.assertIn("<".join(numbers), shown)
        self.assertIn("".join(numbers[31:]), shown)

    def test_the_verdict_of_hostile_journals(self):
        streams = [frame("RunCommand", name=text) for text in HOSTILE[:2]]
        self.open(*(written(f"side{side}", stream) for side, stream in enumerate(streams)))
        self.assertEqual(self.text("#sentence .side-0"), HOSTILE[0])
        self.assertIn(HOSTILE[1], self.text("#printed"))
        self.assertEqual(self.value("document.images.length"), 0)

    def test_the_policy_refuses_scripts_and_tags(self):
        self.open(STREAMS / "replay")
        tags = ("innerHTML = '<img src=x>'", "insertAdjacentHTML('beforeend', '<b>')", "setAttribute('onclick', 'x')")
        for action in tags:
            with self.subTest(action=action), self.assertRaisesRegex(RuntimeError, "TypeError"):
                self.value(f"document.body.{action}")
        self.value("document.body.append(Object.assign(document.createElement('img'), { src: 'data:,' }))")
        browser.wait("document.images[0].complete", messages=4)
        self.assertTrue(all("blocked" in message or "violates" in message for message in browser.messages))
        browser.messages.clear()
        browser.requests.clear()


class Filter(PageTest):
    def setUp(self):
        samples.write_orders(WORK)
        self.open(WORK / "orders_recorded")

    def test_by_keys(self):
        for text, count in (
            ("declined", 1),
            ("Zoë", 1),
            ("type:call", 4),
            ("name:charge", 1),
            ("charge", 1),
            ("type:call is:notification", 2),
            ("is:failure", 2),
            ("is:open", 2),
            ("is:command", 9),
            ("name:status", 3),
            ("ff reserve nothing", 0),
        ):
            with self.subTest(text=text):
                self.search(text)
                self.assertEqual(self.rows(), count)
                self.assertEqual(self.text("#matches"), f"{count} of 18 rows")
                browser.press("Escape")
                self.assertEqual(self.rows(), 18)

    def test_the_selection_moves_within_what_is_shown(self):
        self.search("is:notification")
        self.assertIn("RunCompletionNotification", self.selected())
        browser.press("j")
        self.assertIn("CallInvocationIdCompletionNotification", self.selected())
        browser.press("G")
        self.assertIn("SignalNotification", self.selected())
        browser.press("Escape")
        self.assertIn("SignalNotification", self.selected())

    def test_by_boxes(self):
        self.value("document.querySelector('input[value=notification]').click()")
        self.assertEqual(self.rows(), 4)
        self.value("document.querySelector('input[value=SignalNotification]').click()")
        self.assertEqual(self.rows(), 1)
        self.value("document.querySelector('button[type=reset]').click()")
        self.assertEqual(self.rows(), 18)

    def test_letters_in_the_filter_are_no_keys(self):
        browser.press("/")
        browser.type("jkgn?")
        self.assertEqual(self.value("document.getElementById('text').value"), "jkgn?")
        self.assertEqual(self.value("document.getElementById('help').open"), False)

    def test_a_link_shows_an_item_that_is_filtered_out(self):
        self.search("is:failure")
        self.assertIn("CallCompletionNotification", self.selected())
        browser.press("Enter")
        browser.wait("selected === 8")
        self.assertEqual(self.rows(), 18)

    def test_the_bars_are_as_long_as_their_bytes(self):
        widths = self.value("""[...document.querySelectorAll('#types label')].map((label) =>
            [label.querySelector('input').value, Number(label.querySelector('rect').getAttribute('width'))])""")
        self.assertEqual(widths[0], ["InputCommand", 100])
        self.assertAlmostEqual(dict(widths)["CallCommand"], 100 * 103 / 116)
        self.assertIn("1 × · 103 B", self.text("#types"))


def run(completion_id):
    return frame("RunCommand", result_completion_id=completion_id, name="step")


def done(completion_id, **result):
    return frame("RunCompletionNotification", completion_id=completion_id, **result)


FAILED = {"failure": {"code": 70, "message": "no"}}
EPHEMERAL = frame("GetStateEphemeralCommand", key=b"key", completion_id=1)

# Frames, and the rows that words find; examples/filters.txt has more, which journal show finds too.
FOUND = (
    ((run(1),), {"is:open": [0]}),
    ((run(1), done(1)), {"is:open": []}),
    ((run(1), done(1, **FAILED)), {"is:open": [], "is:failure": [1]}),
    ((done(1), run(1)), {"is:open": []}),
    # an id that comes twice: its next command waits again, or in place of the first
    ((run(1), done(1), run(1)), {"is:open": [2]}),
    ((run(1), done(1), done(1)), {"is:open": []}),
    ((run(1), done(1), done(1), run(1)), {"is:open": []}),
    ((run(1), run(1)), {"is:open": [1]}),
    ((run(1), run(1), done(1)), {"is:open": []}),
    # a command without an id, and a core message with one
    ((run(0),), {"is:open": []}),
    ((EPHEMERAL,), {"is:open": [], "is:core id:1": [0]}),
    # a proposal, and what awaits an id, do not complete it
    ((run(1), frame("ProposeRunCompletion", result_completion_id=1, value=b"x")), {"is:open": [0], "id:1": [0, 1]}),
    ((run(1), frame("Suspension", awaiting_on={"waiting_completions": [1]})), {"is:open": [0], "id:1": [0, 1]}),
    # what only the page finds
    ((run(1), done(1), run(2)), {"-is:open": [0, 1]}),
    ((run(1), b"\x04\x11\0"), {"is:rest": [1], "-is:rest": [0]}),
)


class Open(PageTest):
    def test_what_words_find(self):
        for frames, cases in FOUND:
            self.open(written("open", b"".join(frames)))
            for words, found in cases.items():
                with self.subTest(frames=frames, words=words):
                    self.search(words)
                    self.assertEqual(self.value("shown"), found)

    def test_a_row_says_open_where_the_word_finds_it(self):
        stream = run(1) + done(1) + run(1) + EPHEMERAL + run(0) + run(2) + run(2)
        self.open(written("open", stream))
        links = [self.text(f"#row-{row} .link") for row in range(7)]
        self.assertEqual(links, ["→ #1", "← command 0", "open", "", "", "", "open"])
        self.assertIn("2 open", self.text("#facts"))
        self.search("is:open")
        self.assertEqual(self.value("shown"), [2, 6])


class Keys(PageTest):
    def test_the_list(self):
        samples.write_orders(WORK)
        self.open(WORK / "orders_recorded")
        for key, row in (("j", 1), ("j", 2), ("k", 1), ("ArrowDown", 2), ("ArrowUp", 1), ("G", 17), ("j", 17), ("g", 0),
                         ("k", 0), ("End", 17), ("Home", 0)):
            browser.press(key)
            self.assertEqual(self.value("selected"), row, key)

    def test_help(self):
        self.open(STREAMS / "replay")
        browser.press("?")
        self.assertTrue(self.value("document.getElementById('help').open"))
        browser.press("j")
        self.assertEqual(self.value("selected"), 0)
        browser.press("Escape")
        browser.wait("!document.getElementById('help').open")


class Sizes(PageTest):
    def test_a_hundred_thousand_items(self):
        pair = [frame("RunCommand", result_completion_id=number, name=f"step {number}")
                + frame("RunCompletionNotification", completion_id=number, value={"content": b"%d" % number})
                for number in range(1, 50_001)]
        self.open(written("large", b"".join(pair)))
        self.assertEqual(self.rows(), 100_000)
        self.assertLess(self.value("document.querySelectorAll('.row').length"), 100)
        browser.press("G")
        self.assertIn("← command 49999", self.selected().replace(",", ""))
        browser.press("Enter")
        browser.wait("selected === 99998")
        self.search("name:50000")
        self.assertEqual(self.rows(), 1)
        browser.press("Escape")
        self.value("list.scrollTop = list.scrollHeight / 2")
        browser.wait("document.getElementById('row-50000') !== null")
        self.assertLess(self.value("document.querySelectorAll('.row').length"), 100)

    def test_items_beyond_the_limit(self):
        self.open(written("many", frame("End") * 5000), "--items", "1000")
        self.assertEqual(self.text("#notice"), "Of many the first 1,000 of 5,000 items are shown and joined.")
        self.assertEqual(self.rows(), 1000)
        self.assertIn("5,000 items", self.text("#facts"))
        self.assertIn("1,000 shown", self.text("#facts"))

    def test_the_items_are_those_around_the_first_difference(self):
        same = b"".join(frame("RunCommand", name=b"%d" % place) + frame("End") for place in range(50))
        left = written("left", same + frame("SetStateCommand", key=b"a") + same)
        right = written("right", same + frame("SetStateCommand", key=b"b") + same)
        self.open(left, right, "--items", "40")
        self.assertIn("The journals part at command 50, SetStateCommand", self.text("#sentence"))
        self.assertIn("after it are the same", self.text("#sentence"))
        self.assertIn("Of left 20 of 201 items, those from item 95 and command 48 on, are shown and joined.",
                      self.text("#notice"))
        self.assertIn("101 commands", self.text("#facts"))
        self.assertEqual(self.value("rows[difference][0].command"), 50)
        self.assertEqual(self.value("rows[difference][0].number"), 100)
        self.assertEqual(self.value("itemAt('recorded-100').command"), 50)
        self.search("cmd:50")
        self.assertEqual(self.rows(), 1)

    def test_from_a_command(self):
        items = (frame("RunCommand", name=b"%d" % place) + frame("End") for place in range(50))
        stream = written("many", b"".join(items))
        self.open(stream, "--from", "48")
        self.assertEqual(self.rows(), 5)
        self.assertEqual(self.value("journals[0].commands.map(({ command }) => command)"), [48, 49])

    def test_a_difference_before_the_first_item(self):
        same = frame("ClearAllStateCommand") * 10
        left, right = written("left", frame("End") + same), written("right", frame("OutputCommand") + same)
        self.open(left, right, "--from", "5")
        self.assertIn("The recorded journal ends before command", self.text("#sentence"))

    def test_the_end_of_a_journal_beyond_the_limit(self):
        same = frame("ClearAllStateCommand") * 10
        left, right = written("left", same + frame("End")), written("right", same + frame("OutputCommand"))
        self.open(left, right, "--items", "8")
        self.assertIn("The recorded journal ends before command 10, where the replayed one has", self.text("#sentence"))


class Media(PageTest):
    def setUp(self):
        samples.write_orders(WORK)
        self.addCleanup(browser.resize, 1440, 900)

    def test_dark(self):
        if not hasattr(browser, "emulate"):
            self.skipTest("the browser's protocol has no other medium")
        self.addCleanup(browser.emulate)
        browser.emulate(dark=True)
        self.open(WORK / "orders_recorded")
        self.assertEqual(self.value("getComputedStyle(document.body).backgroundColor"), "rgb(20, 22, 27)")

    def test_narrow_screens_have_all_in_their_width(self):
        browser.resize(360, 740)
        for words in (["orders_recorded"], ["orders_recorded", "orders_replayed"]):
            self.open(*(WORK / word for word in words))
            self.assertLessEqual(self.value("document.documentElement.scrollWidth"), 360)
            self.assertEqual(self.value("document.getElementById('filters').open"), False)
            browser.press("/")
            self.assertEqual(self.value("document.getElementById('filters').open"), True)

    def test_a_row_holds_what_is_in_it(self):
        for width in (360, 800, 1100, 1440, 2000):
            browser.resize(width, 900)
            for words in (["orders_recorded"], ["orders_recorded", "orders_replayed"]):
                self.open(*(WORK / word for word in words))
                spills = """(() => { const bottom = (part) => part.getBoundingClientRect().bottom;
                    return [...document.querySelectorAll('.row')].filter((row) =>
                        [...row.querySelectorAll('span')].some((part) => bottom(part) > bottom(row) + 1));
                    })().length"""
                self.assertEqual(self.value(spills), 0, f"{width} {words}")

    def test_two_types_are_not_cut_to_the_same_letters(self):
        names = ("ProposeRunCompletion", "ProposeRunCompletionAck", "GetInvocationOutputCommand",
                 "GetInvocationOutputCompletionNotification", "GetLazyStateCompletionNotification")
        stream = written("types", b"".join(frame(name) for name in names))
        for width in (320, 390, 700, 961, 1100, 1280, 1440):
            browser.resize(width, 900)
            self.open(stream, stream)
            cut = self.value("""[...document.querySelectorAll('.cell .type span:last-child')].map((type) => {
                const isCut = type.scrollWidth > type.clientWidth + 1 || type.getBoundingClientRect().right >
                    type.closest('.cell').getBoundingClientRect().right + 1;
                return isCut ? type.textContent : ''; }).filter(Boolean)""")
            self.assertEqual([name for name in cut if len(name) < 34 or width <= 960], [], width)

    def test_paper_has_every_row(self):
        stream = written("forty", frame("ClearStateCommand", key=b"a key") * 400)
        self.open(stream)
        count = "document.querySelectorAll('.row').length"
        self.value(f"addEventListener('beforeprint', () => {{ window.printed = {count}; }})")
        self.assertTrue(browser.print().startswith(b"%PDF"))
        self.assertEqual(self.value("window.printed"), 400)
        browser.wait("document.querySelectorAll('.row').length < 100")


class Accessibility(PageTest):
    def test_landmarks_and_labels(self):
        if not hasattr(browser, "accessible_nodes"):
            self.skipTest("the browser's protocol does not tell")
        samples.write_orders(WORK)
        self.open(WORK / "orders_recorded", WORK / "orders_replayed")
        nodes = browser.accessible_nodes()
        for node in (("search", "Filter of items"), ("listbox", "The items in order"), ("region", "The selected item"),
                     ("region", "Where the journals differ")):
            self.assertIn(node, nodes)
        self.assertTrue({"main", "banner"} <= {role for role, _ in nodes})
        for role in ("checkbox", "searchbox", "button", "option", "link"):
            names = [name for found, name in nodes if found == role]
            self.assertTrue(names and all(names), role)

    def test_every_field_has_its_label(self):
        self.open(STREAMS / "recorded")
        unlabelled = "[...document.querySelectorAll('input')].filter((input) => input.labels.length === 0).length"
        self.assertEqual(self.value(unlabelled), 0)

    def test_the_active_row_is_the_selected_one(self):
        self.open(STREAMS / "recorded")
        browser.press("j")
        self.assertEqual(self.value("document.activeElement.id"), "list")
        active = "document.getElementById(document.getElementById('list').getAttribute('aria-activedescendant'))"
        self.assertEqual(self.value(f"{active}.getAttribute('aria-selected')"), "true")
        self.assertEqual(self.value(f"{active}.getAttribute('aria-posinset')"), "2")
        self.assertEqual(self.value(f"{active}.getAttribute('aria-setsize')"), str(self.rows()))
