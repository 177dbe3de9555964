"""Times pages of large journals in headless browsers: python3 view/measure.py [ITEMS..]

    python3 view/measure.py --streams MODULE.wasm MEGABYTES    the page that opens journals, in Chromium and in Firefox

For each number of items, by default 1000, 100000 and 438000, a page of one dump, and one of two that differ in three
commands. Prints a row of a table: the CPU time of the maker; the page's size; until it can be used the time, the
CPU time, the script's heap and the resident memory of the page's process; and the CPU time of a key, of a
drawing of the overview, and of a first filter by a text. That is in Chromium.

With --streams two streams of this many megabytes are chosen, which part at a command after nine tenths, and then with
them a schema. Prints until the difference is said and until the page is there, the CPU time, the most resident memory
of a process of the browser that is not its first, and how many addresses outside the page were requested.
"""
import base64
import contextlib
import json
import os
import pathlib
import resource
import subprocess
import sys
import tempfile
import time

sys.dont_write_bytecode = True
HERE = pathlib.Path(__file__).resolve().parent

import make_opener  # noqa: E402
import samples  # noqa: E402
from browser import BROWSERS  # noqa: E402
from chromium import Chromium  # noqa: E402
from generators.numbering_vectors import Side  # noqa: E402

KEYS = 20
DRAWINGS = 20


def in_base64(text):
    return base64.b64encode(text.encode()).decode()


def write_dump(path, items, is_other):
    """Writes the dump of runs with their completions; of the other journal one run has another name, one is left out,
    and one command is more."""
    offset, runs = 0, items // 2
    with open(path, "w", encoding="utf-8") as file:

        def write(type_name, code, length, message):
            nonlocal offset
            line = {"offset": offset, "type": type_name, "code": code, "length": length, "message": message}
            file.write(json.dumps(line, separators=(",", ":")) + "\n")
            offset += 8 + length

        for run in range(1, runs + 1):
            if is_other and run == runs // 2:
                value = {"content": in_base64("audit")}
                write("SetStateCommand", 0x0403, 16, {"key": in_base64("other"), "value": value})
            if not (is_other and run == 3 * runs // 4):
                name = f"{'other' if is_other and run == runs // 4 else 'step'} {run}"
                write("RunCommand", 0x0411, 14, {"resultCompletionId": run, "name": name})
            value = {"content": in_base64(json.dumps({"run": run}))}
            write("RunCompletionNotification", 0x8011, 20, {"completionId": run, "value": value})
        file.write(json.dumps({"offset": offset, "rest": 0}) + "\n")


def made(page, dumps):
    """The CPU seconds in which a page is made of dumps."""
    before = resource.getrusage(resource.RUSAGE_CHILDREN)
    words = [sys.executable, HERE / "make_page.py", "--items", "10000000", "-o", page, *dumps]
    subprocess.run(words, check=True, stdout=subprocess.DEVNULL)
    after = resource.getrusage(resource.RUSAGE_CHILDREN)
    return after.ru_utime + after.ru_stime - before.ru_utime - before.ru_stime


def processes(browser):
    """The processes that draw pages."""
    session, browser.session = browser.session, None
    found = browser.call("SystemInfo.getProcessInfo")["processInfo"]
    browser.session = session
    return [process for process in found if process["type"] == "renderer"]


def spent(browser, act):
    """The CPU seconds that the page takes for something, and what that returns."""
    before = sum(process["cpuTime"] for process in processes(browser))
    result = act()
    browser.evaluate("1")
    return sum(process["cpuTime"] for process in processes(browser)) - before, result


def resident(browser):
    """The resident memory of the page's process, in megabytes."""
    statuses = [pathlib.Path(f"/proc/{process['id']}/status").read_text() for process in processes(browser)]
    return max(int(status.split("VmRSS:")[1].split()[0]) for status in statuses) * 1024 / 1e6


def search(browser, text):
    browser.press("/")
    browser.type(text)
    browser.press("Enter")


def measured(page):
    """What is measured of a page in the browser, as the cells of a row."""
    with Chromium() as browser:
        processor, seconds = spent(browser, lambda: browser.open(page))
        heap = browser.call("Runtime.getHeapUsage")["usedSize"] / 1e6
        memory = resident(browser)
        key, _ = spent(browser, lambda: browser.press(*"j" * KEYS))
        draw, _ = spent(
            browser, lambda: browser.evaluate(f"for (let count = 0; count < {DRAWINGS}; count++) drawNow();")
        )
        text, _ = spent(browser, lambda: search(browser, "77"))
        return [f"{seconds:.1f} s", f"{processor:.1f} s", f"{heap:.0f} MB", f"{memory:.0f} MB",
                f"{1000 * key / KEYS:.0f} ms", f"{1000 * draw / DRAWINGS:.0f} ms", f"{text:.1f} s"]  # fmt: skip


def tree(first):
    """The processes that a process has begun, and theirs: the CPU seconds of each, and its most resident memory."""
    found, parents = {}, {}
    for folder in pathlib.Path("/proc").glob("[0-9]*"):
        with contextlib.suppress(OSError):
            words = (folder / "stat").read_text().rpartition(") ")[2].split()
            most = (folder / "status").read_text().partition("VmHWM:")[2].split()[:1] or ["0"]
            parents[int(folder.name)] = int(words[1])
            ticks = int(words[11]) + int(words[12])
            found[int(folder.name)] = (ticks / os.sysconf("SC_CLK_TCK"), int(most[0]) * 1024 / 1e6)

    def is_of(process):
        while process not in (0, first):
            process = parents.get(process, 0)
        return process == first

    return {process: facts for process, facts in found.items() if is_of(process)}


def write_streams(paths, megabytes):
    """Writes two streams that part at a command after nine tenths."""
    run = len(next(samples.runs(1)))
    count = megabytes * 1_000_000 // run
    for path, other in zip(paths, (None, count * 95 // 100)):
        with open(path, "wb") as file:
            file.writelines(samples.runs(count, other))


def opened(name, page, paths, schema=None):
    """What is measured of the page that opens two streams, by a schema or without one, as the cells of a row."""
    says = "document.getElementById('opener-says')?.textContent ?? ''"
    with BROWSERS[name]() as browser:
        browser.load(page)
        for place, path in zip(("recorded", "replayed"), paths):
            browser.choose(f"#{place}", path)
        if schema:
            browser.choose("#schema", schema)
        before = sum(seconds for seconds, _ in tree(browser.process.pid).values())
        start = time.monotonic()
        browser.evaluate("document.getElementById('open').click()")
        browser.wait(f"!/^Reading|^$/.test({says}) || document.body.dataset.ready === 'true'")
        said = time.monotonic() - start
        browser.wait("document.body.dataset.ready === 'true'")
        shown = time.monotonic() - start
        processes = tree(browser.process.pid)
        processor = sum(seconds for seconds, _ in processes.values()) - before
        memory = max(most for process, (_, most) in processes.items() if process != browser.process.pid)
        sentence = browser.evaluate("document.getElementById('sentence').textContent")
        sent = [url for url in browser.requests if not url.startswith(("file:", "about:", "blob:", "data:"))]
        print(f"{name}: {sentence}; {[*browser.messages, *sent]}", file=sys.stderr)
        return [f"{said:.1f} s", f"{shown:.1f} s", f"{processor:.1f} s", f"{memory:.0f} MB", f"{len(sent)}"]


def measure_streams(module, megabytes):
    with tempfile.TemporaryDirectory() as folder:
        names = ("journal_view.html", "own.binpb", "recorded", "replayed")
        page, schema, *paths = [pathlib.Path(folder, name) for name in names]
        make_opener.main([module, str(page)])
        # the set of the protocol itself, by which payloads are renumbered nevertheless
        schema.write_bytes(Side().set())
        write_streams(paths, int(megabytes))
        for name in BROWSERS:
            for what, chosen in (("", None), (", by a schema", schema)):
                cells = [name, f"2 × {megabytes} MB{what}", *opened(name, page, paths, chosen)]
                print(f"| {' | '.join(cells)} |", flush=True)


def main(words):
    if words[:1] == ["--streams"]:
        measure_streams(*words[1:])
        return
    with tempfile.TemporaryDirectory() as folder:
        page, *dumps = [pathlib.Path(folder, name) for name in ("page.html", "recorded.jsonl", "replayed.jsonl")]
        for items in map(int, words or ("1000", "100000", "438000")):
            for place, dump in enumerate(dumps):
                write_dump(dump, items, place == 1)
            for count in (1, 2):
                seconds = made(page, dumps[:count])
                size = page.stat().st_size / 1e6
                cells = [f"{count} × {items:,}", f"{seconds:.1f} s", f"{size:.1f} MB", *measured(page)]
                print(f"| {' | '.join(cells)} |", flush=True)


if __name__ == "__main__":
    main(sys.argv[1:])
