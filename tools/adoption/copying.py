"""The copy of this repository with their numbers: its description, and the hand-written bytes that repeat numbers."""
import json
import re
import shutil
import subprocess
import sys
import textwrap

from generators import ROOT, Refused, descriptors, laid_out, literals, proto, quoted, renumbered

from .pairs import EXAMPLES


def copied(out):
    """Copies this repository, with what is changed in it, so that `git diff` there shows what comes of their file."""
    if (ROOT / ".git").exists() and shutil.which("git"):
        subprocess.run(["git", "clone", "--quiet", ROOT, out], check=True)
        words = ["git", "-C", ROOT, "ls-files", "-z", "--modified", "--others", "--exclude-standard"]
        for path in subprocess.run(words, check=True, capture_output=True, text=True).stdout.split("\0"):
            target = out / path
            if path and (ROOT / path).is_file() and out.resolve() not in (ROOT / path).resolve().parents:
                target.parent.mkdir(parents=True, exist_ok=True)
                shutil.copy2(ROOT / path, target)
            elif path:
                target.unlink(missing_ok=True)
    else:
        shutil.copytree(
            ROOT,
            out,
            ignore=shutil.ignore_patterns("out", "target", "node_modules", "__pycache__", out.name),
            dirs_exist_ok=True,
        )


# What hand-written pages say of the numbers here, and what the copy says instead of it.
WHOSE = {
    "proto/journal.proto": (
        "this project's own, but those of SuspensionMessageV6; agreement with a server is not claimed",
        "those of `{theirs}`, where that has a field; tools/adopt.py has taken them",
    ),
    "README.md": (
        "**The field numbers are this project's own**",
        "**The field numbers are those of `{theirs}`**, where that has a field",
    ),
    "docs/DIFFERENCES.md": (
        "this project's own (`proto/journal.proto`), but those of `SuspensionMessageV6`",
        "those of `{theirs}`, where that has a field (`proto/journal.proto`)",
    ),
    "docs/FORMAT.md": (
        "this project's own, except those of `SuspensionMessageV6`",
        "those of `{theirs}`, where that has a field",
    ),
    **dict.fromkeys(
        ("docs/PROOFS.md", "docs/COMPATIBILITY.md"),
        (
            "the field numbers are this project's own",
            "the field numbers are those of `{theirs}`, where that has a field",
        ),
    ),
    "docs/CHANGING.md": (
        "The field numbers of `proto/journal.proto` are this project's own",
        "The field numbers of `proto/journal.proto` are those of `{theirs}`, where that has a field",
    ),
}

WIDTH = 120


def whose(path):
    """What a page says of the numbers: this project's words, or those of a copy that was adopted already."""
    patterns = (re.escape(words).replace(r"\{theirs\}", "[^`]+").replace(r"\ ", r"\s+") for words in WHOSE[path])
    return re.compile("|".join(patterns))


def say_whose(out, theirs):
    """Says on the pages of the copy whose numbers these are."""
    for path, (_, there) in WHOSE.items():
        place = out / path
        text = whose(path).sub(lambda _, there=there: there.format(theirs=theirs), place.read_text(encoding="utf-8"))
        place.write_text(filled(text) if path.endswith(".md") else text, encoding="utf-8")


def filled(text):
    """A page, in which paragraphs and items with a line that is too long are laid out again."""
    blocks = re.split(r"(\n\n|\n(?=- ))", text)
    return "".join(block if not is_too_long(block) else laid_out_block(block) for block in blocks)


def is_too_long(block):
    """Whether a block is a paragraph or an item, and has a line that is too long."""
    return max(map(len, block.split("\n"))) > WIDTH and not re.match(r"[|#\n ]|\d+\.", block)


def laid_out_block(block):
    indent = "  " if block.startswith("- ") else ""
    end = "\n" if block.endswith("\n") else ""
    words = " ".join(block.split())
    lines = textwrap.fill(words, WIDTH, subsequent_indent=indent, break_long_words=False, break_on_hyphens=False)
    return lines + end


def adopt_further(out, adoption):
    """The lines of the hand-written test vectors that each further message has, and each further type."""
    for one in adoption.added_messages():
        add_line(out, "payloads.txt", r"payload \w+ - = -\n", f"payload {one.name} - = -\n")
        if one.code is not None:
            line = f"frame {one.name.removesuffix('Message')} 5 - = {one.code:04x}{'0' * 12}\n"
            add_line(out, "frames.txt", r"frame \w+ 5 - = \w+\n", line)


def add_line(out, name, alike, line):
    """Adds a line to the first lines of a file that are alike, and to their number on pages."""
    place = out / "conformance" / name
    text = place.read_text(encoding="utf-8")
    heading, lines = re.search(rf"^# (.*)\n(?:#.*\n)*((?:{alike})+)", text, re.M).groups()
    place.write_text(text.replace(lines, lines + line, 1), encoding="utf-8")
    for page in [out / "conformance" / "README.md", *(out / "docs").glob("*.md")]:
        said = page.read_text(encoding="utf-8")
        counted = [
            row
            for row in re.findall(rf"^    {name}, \d+: .*$", said, re.M)
            if heading.startswith(row.split(": ", 1)[1])
        ]
        for row in counted:
            said = said.replace(row, re.sub(r"\d+", str(lines.count("\n") + 1), row, count=1))
        page.write_text(said, encoding="utf-8")


def adopt_vectors(out, renumbering):
    """The hand-written test vectors with their numbers, and where pages have the same lines; the number of lines that
    are others now."""
    changed = {}
    vectors = [*sorted((out / "conformance").glob("*.txt")), out / "tests" / "vectors" / "wrong_lines.txt"]
    for place in vectors:
        text = place.read_text(encoding="utf-8")
        # the random ones are made by prost, which is seldom there
        if not text.startswith("# @generated") or place.name.startswith("random_"):
            lines = renumbering.lines(text)
            changed.update((old, line) for old, line in lines if line not in (old, None))
            place.write_text("\n".join(line for _, line in lines if line is not None), encoding="utf-8")
    found = out / "tests" / "vectors" / "wrong_lines.found"
    found.write_text(renumbering.found(found.read_text(encoding="utf-8")), encoding="utf-8")
    for page in (out / "docs").glob("*.md"):
        lines = page.read_text(encoding="utf-8").split("\n")
        page.write_text(
            "\n".join(line.replace(line.strip(), changed.get(line.strip(), line.strip())) for line in lines),
            encoding="utf-8",
        )
    return len(changed)


def adopt_examples(out, renumbering):
    """The streams of examples/ with their numbers, their listings and dumps, and where pages and tests have lines of
    these. The lines of listings that are others now."""
    changed = {}
    for listed in sorted((out / "examples" / "streams").glob("*.stdout")):
        place = listed.with_suffix("")
        data = place.read_bytes()
        place.write_bytes(b"".join(renumbering.stream(EXAMPLES, [data], None)))
        new = place.read_bytes()
        before = listed.read_text(encoding="utf-8")
        after = renumbering.new.listing(EXAMPLES, new).replace(", ", "\n") + "\n"
        listed.write_text(after, encoding="utf-8")
        pairs = zip(before.splitlines(), after.splitlines())
        changed.update((old, line) for old, line in pairs if old != line and not old.startswith("rest"))
        dump = listed.with_suffix(".dump")
        if dump.exists():
            before = dump.read_text(encoding="utf-8")
            after = renumbering.dump(EXAMPLES, data, new, before)
            dump.write_text(after, encoding="utf-8")
            for old, line in zip(before.splitlines(), after.splitlines()):
                changed.update(messages_of(old, line))
            readme = out / "README.md"
            text = readme.read_text(encoding="utf-8")
            for old, line in zip(before.splitlines(), after.splitlines()):
                text = text.replace(f"    {old}\n", f"    {line}\n")
            readme.write_text(text, encoding="utf-8")
    return changed


def messages_of(*lines):
    """The JSON of the message of a line of a dump with that of another one, where both are not the same."""
    shown = [json.loads(line).get("message") for line in lines]
    texts = [json.dumps(message, separators=(",", ":"), ensure_ascii=False) for message in shown]
    return {texts[0]: texts[1]} if None not in shown and texts[0] != texts[1] else {}


def adopt_tables(out):
    """What is said there of the examples of other .proto files, whose numbers are others now."""
    for place in sorted((out / "tests" / "adopt").glob("*.txt")):
        words = [sys.executable, "-B", "tools/adopt.py", "--table", "--all", place.with_suffix(".proto")]
        said = subprocess.run(words, cwd=out, capture_output=True, text=True, check=True).stdout
        place.write_text(said, encoding="utf-8")


def adopt_tests(out, renumbering):
    """The payloads that tests quote with their numbers; how many these are."""
    quotes = quoted.Quoted(renumbering)
    changed = {}
    for place in sorted((out / "tests").glob("*/*.rt.in")):
        path, text = str(place.relative_to(out)), place.read_text(encoding="utf-8")
        new = text if text.startswith("// @generated") else quotes.text(path, text)
        if new != text:
            changed[path] = new
    for path, text in laid_out(changed).items():
        (out / path).write_text(text, encoding="utf-8")
    return quotes.count


def adopt_literals(out, renumbering, listings):
    """The payloads that packages, tests in C and pages quote with their numbers, and lines of listings; how many these
    are."""
    quotes = literals.Literals(renumbering, listings)
    for path in literals.paths(out):
        place = out / path
        text = place.read_text(encoding="utf-8")
        place.write_text(quotes.text(path, text), encoding="utf-8")
    for place in (out / "tests").glob("*/*.rt.in"):
        text = place.read_text(encoding="utf-8")
        place.write_text(quotes.of_listings(text), encoding="utf-8")
    # in the layout of their tools, where these are
    for words, pattern in ((["gofmt", "-w"], "go/**/*.go"), (["rustfmt", "--edition", "2021"], "rust/**/*.rs")):
        if shutil.which(words[0]):
            subprocess.run([*words, *sorted(out.glob(pattern))], capture_output=True)
    return quotes.count


def made(out, theirs, text, adoption):
    """Makes the copy, with what repeats numbers by hand, and tells how much of it there is; the description there."""
    copied(out)
    (out / "proto" / "journal.proto").write_text(text, encoding="utf-8")
    say_whose(out, theirs)
    described = descriptors.read(out / "proto" / "journal.proto")
    adopt_further(out, adoption)
    renumbering = renumbered.Renumbering(proto.description(), described)
    print(f"{adopt_vectors(out, renumbering)} hand-written test vectors have other numbers")
    print(f"{adopt_tests(out, renumbering)} payloads that tests quote have other numbers")
    listings = adopt_examples(out, renumbering)
    print(f"{adopt_literals(out, renumbering, listings)} that packages, their tests and pages quote")
    return described


def generate(out):
    """Generates there what repeats the description, or tells why not."""
    print(f"\n{out}: the copy, with its description; generating what repeats it", flush=True)
    ended = subprocess.run([sys.executable, "-B", "tools/generate.py"], cwd=out, capture_output=True, text=True)
    if ended.returncode != 0:
        told = f"{ended.stdout[-2000:]}{ended.stderr.strip()}"
        raise Refused([f"tools/generate.py fails there:\n{told}"])
    print(f"{ended.stdout.count('wrote ')} files generated", flush=True)
    adopt_tables(out)
