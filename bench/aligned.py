"""Measures the program journal_diff --all against diff -u of two dumps: python3 bench/aligned.py [COMMANDS]

For two journals of this many commands, 100,000 by default, where 0, 10 and 1,000 differ: a third is inserted, a third
removed and a third changed, spread evenly. Prints a table in Markdown: the CPU time and the peak of resident
memory of journal diff, of journal diff --all, of diff -u of the dumps without their offsets, which would differ in all
lines after the first difference, and of both dumps before it. It takes the proved program that rt ci leaves in out/;
where it is not there, or there is no diff, it says 'not run: ..'. The memory is what GNU time says, since the system
counts that of this script for the processes that it begins itself; without that command the column has a dash.
"""
import os
import pathlib
import re
import shutil
import subprocess
import sys
import tempfile

ROOT = pathlib.Path(__file__).resolve().parents[1]
JOURNAL = ROOT / "crates" / "journal" / "out" / "journal"
DIFFERENCES = (0, 10, 1000)
REPEATED = 3


def state(key, value):
    """A command that sets a state."""
    held = b"\n" + bytes([len(value)]) + value
    payload = b"\n" + bytes([len(key)]) + key + b"\x1a" + bytes([len(held)]) + held
    return (0x403).to_bytes(2, "big") + len(payload).to_bytes(6, "big") + payload


def write_journals(recorded, replayed, commands, differences):
    """Writes two journals that differ in so many commands."""
    differing = {(number + 1) * commands // (differences + 1): number % 3 for number in range(differences)}
    with open(recorded, "wb") as one, open(replayed, "wb") as other:
        for index in range(commands):
            command = state(b"key %d" % index, b"the value of a state")
            how = differing.get(index)
            if how == 0:
                other.write(state(b"more %d" % index, b"the value of a state"))
            one.write(command)
            if how == 2:
                other.write(state(b"key %d" % index, b"another value of it"))
            elif how != 1:
                other.write(command)


def measured(words, output):
    """The CPU seconds of a program, the least of several runs, and its peak of memory in MiB, or None."""
    time = shutil.which("time")
    peak = f"{output}.peak"
    best = None
    for _ in range(REPEATED):
        with open(output, "wb") as file:
            timed = [time, "-q", "-f", "%M", "-o", peak, *words] if time else words
            process = subprocess.Popen(timed, stdout=file, stderr=subprocess.DEVNULL)
            _, status, used = os.wait4(process.pid, 0)
            process.returncode = os.waitstatus_to_exitcode(status)
        if process.returncode not in (0, 1):
            raise SystemExit(f"{words}: status {process.returncode}")
        one = (used.ru_utime + used.ru_stime, int(pathlib.Path(peak).read_text()) / 1024 if time else None)
        best = one if best is None else min(best, one, key=lambda found: found[0])
    return best


def without_offsets(path):
    """Takes the offsets out of the lines of a dump."""
    file = pathlib.Path(path)
    file.write_text(re.sub(r'^{"offset":\d+,', "{", file.read_text(), flags=re.M))


def shown(one):
    return f"{one[0]:.3f} s, {'–' if one[1] is None else f'{one[1]:.1f} MiB'}"


def main(words):
    commands = int(words[0]) if words else 100_000
    if not os.access(JOURNAL, os.X_OK) or not shutil.which("diff"):
        print("not run: there is no proved program journal, or no diff")
        return
    print(f"load {os.getloadavg()[0]:.1f}\n")
    print("| commands, of which differ | journal diff | journal diff --all | diff -u of the dumps | the dumps |")
    print("|---|---|---|---|---|")
    with tempfile.TemporaryDirectory() as folder:
        paths = [os.path.join(folder, name) for name in ("recorded", "replayed")]
        dumps = [f"{path}.jsonl" for path in paths]
        out = os.path.join(folder, "out")
        for differences in DIFFERENCES:
            write_journals(*paths, commands, differences)
            made = [measured([JOURNAL, "dump", path], dump) for path, dump in zip(paths, dumps)]
            for dump in dumps:
                without_offsets(dump)
            cells = [
                measured([JOURNAL, "diff", *paths], out),
                measured([JOURNAL, "diff", "--all", *paths], out),
                measured(["diff", "-u", *dumps], out),
                (sum(seconds for seconds, _ in made), made[0][1]),
            ]
            print(f"| {commands:,}, {differences:,} | {' | '.join(map(shown, cells))} |")


if __name__ == "__main__":
    main(sys.argv[1:])
