#!/usr/bin/env python3
"""Comments and pages use the field's words, and not the dialect of earlier versions; pages have short sentences.

Each phrase below is searched in pages, comments and docstrings, code in backquotes left out, also where it goes over
the end of a line. A word with honest other uses is here only in the wrong phrase. Each page is plain: it has none of
the phrases of DIALECT either, and of a hundred sentences fewer than five with more than 30 words. So are the help texts
and the texts of the man pages, in the description of the programs. Comments of public items and of headers have as few
long sentences, and comments of the folders of PLAIN have none of the phrases of DIALECT. With --pages it prints of
each page its words, its long sentences of a hundred, and its phrases.
"""
from __future__ import annotations

import bisect
import collections.abc
import pathlib
import re
import subprocess
import sys

import checks

# Phrases, each with better words.
PHRASES = (
    (r"[Ww]ant of memory", "out of memory, or a failed allocation"),
    (r"[Rr]equests? for memory", "allocation"),
    (r"[Aa]sk(s|ed|ing)? for (no |more )*memory", "allocate"),
    (r"[Tt]ak(es?|ing) no memory", "does not allocate"),
    (r"[Mm]emory (is|was) refused", "an allocation fails"),
    (r"[Ll]ets? go of", "drop"),
    (r"[Ww]rong bod(y|ies)", "mutant"),
    (r"[Nn]obody means well", "adversarial"),
    (r"[Hh]ostile (bytes|messages?|streams?|calls|arguments|input)", "adversarial"),
    (r"(texts?|lines?) for people", "human-readable"),
    (r"the layer above", "the SDK state machine"),
    (r"[Oo]ne behind the other", "one after the other"),
    (r"(stands?|comes?|goes|is|are|written) behind", "after"),
    (r"in front of", "before"),
    (r"(the|one|canonical|longer|free|shortest) spellings?", "encoding"),
    (r" spell(s|ed)? ", "encodes"),
    (r"conformance lines", "test vectors"),
    (r"(in|of) pieces", "chunks"),
    (r"a piece", "a chunk"),
    (r"(is|are) told (how|what|the|that)", "is given"),
    (r"(if|where) (it|none) is not said", "by default"),
    (r"(is|are) let go", "is dropped"),
    (r"in any cut", "however it is split"),
    (r"(call|it|function|and) answers ", "returns"),
    (r"answers (how|what|whether|the|a|an|its|no) ", "returns"),
    (r"is answered", "is returned"),
    (r"stands? as it (was|stood)", "is unchanged"),
    (r"stands? in one another", "are nested"),
    (r"stands? for no type", "unknown code"),
    (r"so many (bytes|more|times)", "a number of"),
    (r"[Ll]ays? (a|one|the) [a-z]+ over", "merge"),
    (r" spelled ", "encoded"),
    (r"(is|are) (not )*to be had", "is available, or is missing"),
    (r"goes on where it stands", "is merged into what is there"),
    (r" stood ", "was"),
    (r" [Rr]efus(e|es|ing) ", "reject"),
    (r" behind (it|that|them|these|those|promises?)[ ,.;:]", "after"),
    (r"nobody", "adversarial, or no caller"),
    (r"(is|are) mended", "is fixed"),
    (r"[Tt]hat it is asked", "that it is called"),
    (r"[Aa]sk(s|ed|ing)? for an acknowledgement", "requests"),
    (r"acknowledgement is asked for", "is requested"),
    (r"(, |text |names? |ids? |description )for people ?[,.;:]", "human-readable"),
    (r"stands? for (a|an|its|no|that|this|their) ", "denotes"),
    (r"[Ww]hat there is (to|of) ", "the contents of"),
    (r"memory (ran|runs) out", "an allocation failed"),
    (r"reader (is|are) gone", "its reader has closed it"),
    (r"is told nothing", "nothing is reported"),
    (r"nothing is said", "nothing is reported"),
    (r"by whichever of ", "of the same field"),
    (r"stands? written", "is written"),
    (r"[Ww]hat nothing was ", "the value before"),
    (r"as a person reads", "human-readable"),
    (r"[Aa]ll that there is[ ,.;:]", "all"),
    (r"what (is|was) not taken", "the rejected value"),
    (r"[Ww]hy a (JSON text|line|value) (is|was) not taken", "is rejected"),
    (r"[Gg]oes on with it[ ,.;:]", "resumes"),
    (r"looked at without", "read without"),
    (r"comes? out as ", "decodes to"),
)
PATTERNS = [(re.compile(pattern), better) for pattern, better in PHRASES]
CODE = re.compile("`[^`]*`")

# Phrases of pages, each with the field's term. A message may say something.
DIALECT = (
    (r"bytes (that are )?in no item", "trailing bytes, or incomplete data"),
    (r"code (that is no type's|of no type)|codes of no type", "unassigned code"),
    (r"as (it|they) came\b|\bthat came\b|\b(has|have) come\b", "as received, verbatim, received"),
    (r"\b[Bb]eside\b", "compared with, next to, in addition to"),
    (r"\balone\b", "only"),
    (r", of which |[.:;] Of (the|its|an?|all|these|those|two|both) ", "split the sentence; name the subject first"),
    (r"(?<![Tt]here )\b(is|are) no (?!longer\b|more\b|less\b|such\b)[a-z]+", "is not a"),
    (r"(?<!Message: )\bsays (how|what|which|whether|why)\b", "documents, reports, specifies, tells"),
    (r"\b[Ww]hoever\b", "Audience:, anyone who"),
    (r"\b[Tt]he kit\b", "Rattle's standard library, or the toolchain"),
    (r"\b[Tt]he peer\b", "the baseline, or prost"),
    (r"\bprocessor (time|minutes?|seconds?)", "CPU time"),
    (r"\bof the caller's\b|\bof yours\b|\bone's own\b", "caller-provided, your own"),
    (r"\bbut for\b", "except"),
    (r"\b(Wanted|Elsewhere)\b", "Target, Other machines"),
    (r"\ba line (each|for each)\b", "one per line"),
    (r"the first that is true comes", "errors, in order of precedence"),
    (r"in place of each after", "may replace any later error"),
    (r"\bcalls? for C\b|\b([Rr]ecords?|structs?) of C\b|\brecords? of Go\b", "the C API, C structs, Go records"),
    (r"\btrouble\b", "error"),
    (r"\bletters\b", "characters"),
    (r"\bdear\b", "expensive"),
    (r"\blent\b", "borrowed"),
    (r"\bgo(es)? over\b", "iterates over"),
    (r"\bgone over\b", "traversed"),
    (r"\bno type's\b", "unassigned"),
    (r"\b[Ll]est\b", "so that .. not"),
    (r"\bon trust\b", "without a proof, or trusted"),
)
DIALECT_PATTERNS = [(re.compile(pattern), better) for pattern, better in DIALECT]

# The folders whose comments have none of these phrases.
PLAIN = (
    "crates/", "include/", "tests/", "examples/", "bench/", "go/", "node/", "python/", "ruby/", "rust/", "scripts/",
    "tools/", "view/", "wasm/", "proto/",
)

# How many words a sentence may have, and how many of a hundred may have more.
WORDS, LONG = 30, 5

# The description of the programs, whose texts are those of the help and of the man pages.
PROGRAMS = "proto/programs.toml"

# The comments whose sentences are counted: those of public items of Rattle, and those of the headers.
COUNTED = {".rt": ("comments of public items", "///"), ".h": ("comments of headers", r"(?:/\*+|\*)")}

# What a comment begins with, by the end of a file's name; a page is text from its first line.
SLASHES, DASHES, HASHES, STARS = "//[/!]?", "--+", "#+", r"(?:/\*+|\*|//)"
MARKS = {
    **dict.fromkeys((".rt", ".rt.in", ".proto", ".rs", ".go"), SLASHES),
    **dict.fromkeys((".py", ".sh", ".awk", ".rb"), HASHES),
    **dict.fromkeys((".c", ".h", ".js", ".ts", ".mts"), STARS),
    ".antt": DASHES,
}
PAGE = ".md"

# This file has the phrases.
SELF = "scripts/checks/words.py"

# The number of a line and its text, or None where what is before it does not go on.
Line = tuple[int, str | None]


def page_lines(lines: list[str]) -> collections.abc.Iterator[Line]:
    """The text of a page, without code."""
    is_fenced = False
    goes_on = False
    for number, line in enumerate(lines, 1):
        if re.match(" *```", line):
            is_fenced = not is_fenced
            goes_on = False
            yield number, None
        elif not (is_fenced or line.startswith("    ") and not goes_on):
            goes_on = line.strip(" ") != ""
            yield number, line


def comment_lines(lines: list[str], marks: str, is_python: bool) -> collections.abc.Iterator[Line]:
    """The text of comments, and of the docstrings of Python, from quotes to quotes."""
    comment = re.compile(rf"\s*{marks}(?: |$)")
    in_docstring = goes_on = False
    for number, line in enumerate(lines, 1):
        quotes = line.count('"""') if is_python else 0
        mark = comment.match(line)
        if in_docstring or quotes:
            goes_on = True
            yield number, line.replace('"""', "")
        elif mark:
            goes_on = True
            yield number, line[mark.end():]
        elif goes_on:
            goes_on = False
            yield number, None
        in_docstring ^= quotes % 2 == 1


def described_lines(lines: list[str]) -> collections.abc.Iterator[Line]:
    """The texts of the description of the programs, each a paragraph."""
    for number, line in enumerate(lines, 1):
        if not re.match(r"[#\[]|(value|values|crate|default|completed|required|repeated) =", line):
            begins = re.match(r'\w+ = ("""\\?|")', line)
            if begins:
                yield number, None
            yield number, re.sub(r'("""|"|\\)$', "", line.removeprefix(begins[0] if begins else ""))


def found(
    lines: collections.abc.Iterable[Line], patterns: list[tuple[re.Pattern[str], str]]
) -> list[tuple[int, str, str]]:
    """The phrases in lines, each with the number of the line in which it ends, and the better words."""
    # all lines as one text, in which no phrase goes over the end of a paragraph, and the offset at which each ends
    parts = [" "]
    ends = [len(parts[0])]
    numbers = [0]
    for number, line in lines:
        text = CODE.sub("`", line.lstrip(" ")) if line else ""
        parts.append(f"{text} " if text else "\n ")
        ends.append(ends[-1] + len(parts[-1]))
        numbers.append(number)
    joined = "".join(parts)
    phrases = [(phrase, better) for pattern, better in patterns for phrase in pattern.finditer(joined)]
    return sorted((numbers[bisect.bisect_left(ends, phrase.end())], phrase[0], better) for phrase, better in phrases)


def sentences(lines: collections.abc.Iterable[Line]) -> list[str]:
    """The sentences of a page: those of its paragraphs and items, and the cells of its tables, without headings."""
    blocks = [""]
    for _, line in lines:
        text = CODE.sub("Code", line or "").strip()
        if text.startswith("|"):
            blocks += [*text.strip("|").split("|"), ""]
        elif not text or re.match(r"(#|!\[|<!--|[|-]*$)", text):
            blocks.append("")
        elif re.match(r"([-*]|\d+\.) ", text):
            blocks.append(text)
        else:
            blocks[-1] = f"{blocks[-1]} {text}"
    found = [part for block in blocks for part in re.split(r"(?<=[.!?])[)*\"]* +(?=[A-Z`\"(*\[])", block)]
    return [part for part in found if len(part.split()) > 2]


def too_long(all_of_page: list[str]) -> list[str]:
    """The sentences that have too many words."""
    return [sentence for sentence in all_of_page if len(sentence.split()) > WORDS]


def plain(check: checks.Check, page: str, lines: list[Line]) -> None:
    """Counts a case: a page is plain."""
    all_of_page = sentences(lines)
    long = too_long(all_of_page)
    phrases = found(lines, DIALECT_PATTERNS)
    is_plain = not phrases and 100 * len(long) < LONG * max(len(all_of_page), 20)
    said = f"{page}: {len(long)} of {len(all_of_page)} sentences have more than {WORDS} words, {len(phrases)} phrases"
    shown = [f"\n  {number}: {phrase.strip()} (better: {better})" for number, phrase, better in phrases]
    shown += [f"\n  {sentence.strip()}" for sentence in long]
    check.case(said, is_plain, "".join(shown))


def files() -> list[str]:
    """The files of the repository."""
    listed = subprocess.run(["git", "ls-files", "-z"], stdout=subprocess.PIPE, check=True, encoding="utf-8").stdout
    # a file that was removed is listed until that is staged
    return [file for file in listed.rstrip("\0").split("\0") if pathlib.Path(file).exists()]


def print_pages() -> None:
    """Prints of each page its words, its long sentences of a hundred, and its phrases of DIALECT."""
    for page in files():
        if page.endswith(PAGE):
            text = pathlib.Path(page).read_text(encoding="utf-8")
            lines = list(page_lines(text.split("\n")))
            all_of_page = sentences(lines)
            share = 100 * len(too_long(all_of_page)) / len(all_of_page)
            phrases = len(found(lines, DIALECT_PATTERNS))
            print(f"{page}: {len(text.split())} words, {share:.1f} of 100 sentences, {phrases} phrases")


def main(check: checks.Check) -> None:
    endings = (PAGE, *MARKS, PROGRAMS)
    counted = {what: [0, 0] for what, _ in COUNTED.values()}
    for file in files():
        ending = next((ending for ending in endings if file.endswith(ending)), None)
        if ending is None:
            continue
        lines = [] if file == SELF else pathlib.Path(file).read_text(encoding="utf-8").split("\n")
        lines = [line if "@generated" not in line else "" for line in lines]
        if ending == PAGE:
            texts = list(page_lines(lines))
        elif ending == PROGRAMS:
            texts = list(described_lines(lines))
        else:
            texts = list(comment_lines(lines, MARKS[ending], ending == ".py"))
        phrases = [f"{file}:{number}: {phrase} (better: {better})" for number, phrase, better in found(texts, PATTERNS)]
        if ending in (PAGE, PROGRAMS):
            plain(check, file, texts)
        elif file.startswith(PLAIN):
            phrases += [
                f"{file}:{number}: {phrase.strip()} (better: {better})"
                for number, phrase, better in found(texts, DIALECT_PATTERNS)
            ]
        if ending in COUNTED:
            what, mark = COUNTED[ending]
            said = sentences(comment_lines(lines, mark, False))
            counted[what] = [counted[what][0] + len(too_long(said)), counted[what][1] + len(said)]
        for phrase in phrases:
            check.case(phrase, False)
        if not phrases:
            check.case(file, True)
    for what, (long, all_of_them) in counted.items():
        said = f"{what}: {long} of {all_of_them} sentences have more than {WORDS} words"
        print(f"words: {said}")
        check.case(said, 100 * long < LONG * all_of_them)


if __name__ == "__main__":
    if sys.argv[1:] == ["--pages"]:
        print_pages()
    else:
        checks.perform(main)
