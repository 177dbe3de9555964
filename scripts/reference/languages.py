#!/usr/bin/env python3
"""Makes the reference pages of every package, from the sources: scripts/reference.sh [--only LANGUAGE].. FOLDER

    FOLDER             where the pages are made; it is made too, and has nothing in it
    --only LANGUAGE    the pages of this language only, which may be given several times; --list lists them

A language has a folder, whose page begins with an example that the checks run, and FOLDER/index.html leads to all. The
pages are those that users of the language expect: of rustdoc, of Sphinx for Python, of YARD for Ruby and of Doxygen for
C. Those of Go (in the form of pkg.go.dev, by go/doc), of TypeScript (by its compiler) and of Rattle are made here. A
language whose tool is absent is left out, which a line on the standard error reports. No library has to be built. The
same tools make the same bytes of the same commit. With all languages there are also the pages of the folder docs, the
examples, and what the packages' own pages link to, each at its path.
"""
from __future__ import annotations

import argparse
import ast
import collections.abc
import dataclasses
import html
import json
import os
import pathlib
import re
import shutil
import subprocess
import sys
import tempfile

import markdown_page
import python_pages
import rattle_pages

PARTS = pathlib.Path(__file__).resolve().parent
ROOT = PARTS.parent.parent
sys.path.insert(1, str(PARTS.parent))

import released_pages  # noqa: E402

TITLE = "Pendratsoa"


class NotMade(Exception):
    """Why there are no pages of a language."""


@dataclasses.dataclass
class Work:
    """Where the pages of a language are made, and a folder that is gone afterwards."""

    out: pathlib.Path
    work: pathlib.Path


# What a language yields: the public names without a sentence.
Undocumented = list[str]


def needs(tool: str, package: str) -> str:
    """The path of a tool."""
    found = shutil.which(tool)
    if not found:
        raise NotMade(f"there is no {tool}; the Debian package {package} has it")
    return found


def run(*words: str | pathlib.Path, cwd: pathlib.Path = ROOT, **env: str) -> subprocess.CompletedProcess[str]:
    """Runs a command, whose output is kept; one that fails ends all."""
    ended = subprocess.run(words, cwd=cwd, text=True, capture_output=True, env={**os.environ, **env})
    if ended.returncode:
        raise SystemExit(f"reference.sh: {' '.join(map(str, words))}: status {ended.returncode}\n{ended.stderr}")
    return ended


def version() -> str:
    return (ROOT / "VERSION").read_text().strip()


def example(page: str, language: str) -> str:
    """The first block of code in this language on a page, which a check runs."""
    found = re.search(rf"^```{language}\n(.*?)^```$", (ROOT / page).read_text(), re.MULTILINE | re.DOTALL)
    if not found:
        raise SystemExit(f"reference.sh: {page} has no block of {language}")
    return found[1]


def copy(folder: str, work: pathlib.Path) -> pathlib.Path:
    """A copy of a package without what is built in it."""
    target = work / folder
    ignored = shutil.ignore_patterns("target", "build", "dist", "*.so", "__pycache__", "Cargo.lock")
    shutil.copytree(ROOT / folder, target, ignore=ignored)
    return target


def rust(made: Work) -> Undocumented:
    """The pages of rustdoc, of the crate and of the codec of tokio, if Debian's crates are there."""
    needs("cargo", "cargo")
    needs("rustdoc", "rustc")
    folder = copy("rust", made.work)
    shutil.copytree(ROOT / "conformance", made.work / "conformance")
    env = {
        "CARGO_HOME": str(made.work / "cargo"),
        "CARGO_NET_OFFLINE": "true",
        "CARGO_TARGET_DIR": str(made.work / "target"),
        "RUSTDOCFLAGS": "-W missing_docs",
        # a folder without a library: nothing is linked
        "PENDRATSOA_PREFIX": str(made.work / "nowhere"),
    }
    said = run("cargo", "doc", "--no-deps", "--lib", cwd=folder, **env).stderr
    registry = pathlib.Path("/usr/share/cargo/registry")
    if list(registry.glob("tokio-util-0.7*")):
        (made.work / "cargo").mkdir(exist_ok=True)
        (made.work / "cargo" / "config.toml").write_text(
            f'[source.crates-io]\nreplace-with = "debian"\n\n[source.debian]\ndirectory = "{registry}"\n')
        said += run("cargo", "doc", "--no-deps", "--lib", cwd=folder / "tokio", **env).stderr
    shutil.copytree(made.work / "target" / "doc", made.out, ignore=shutil.ignore_patterns(".lock"))
    mend_links(made.out)
    return re.findall(r"warning: (missing documentation for .*)", said)


def mend_links(out: pathlib.Path) -> None:
    """Removes the links of rustdoc's pages that lead to nothing, or makes what they lead to: a page of all crates, for
    those of help and settings. In an older rustdoc these name a script that only crates have. A comment of another
    crate, as tokio_util, has links by paths of Rust, as futures_core::Stream: they become their texts."""
    for page in out.rglob("*.html"):
        text = page.read_text(encoding="utf-8")
        text = re.sub(r'<a href="\w+(?:::\w+)+"[^>]*>(.*?)</a>', r"\1", text)
        if page.parent == out:
            text = re.sub(r'<script[^>]* src="(\./)?sidebar-items\.js"></script>', "", text)
        page.write_text(text, encoding="utf-8")
    names = sorted(page.parent.name for page in out.glob("*/all.html"))
    rows = "".join(f'<li><a href="{name}/index.html"><code>{name}</code></a></li>\n' for name in names)
    write(out / "index.html", "pendratsoa for Rust", f"<h1>pendratsoa for Rust</h1>\n<ul>\n{rows}</ul>")


def go(made: Work) -> Undocumented:
    """One page, in the form of pkg.go.dev."""
    needs("go", "golang-go")
    (made.work / "example").write_text(example("go/README.md", "go"))
    env = {"GOFLAGS": "-mod=mod", "GOPROXY": "off", "GOCACHE": str(made.work / "cache"), "GO111MODULE": "off"}
    ended = run("go", "run", PARTS / "go.go", ROOT / "go", made.work / "example", **env)
    write(made.out / "index.html", "pendratsoa for Go", ended.stdout)
    return ended.stderr.splitlines()


CONF = """\
import enum
import sys

sys.path.insert(0, {folder!r})
project = "pendratsoa"
version = release = {version!r}
extensions = ["sphinx.ext.autodoc"]
autodoc_member_order = "bysource"
autodoc_typehints = "signature"
html_theme = "alabaster"
html_copy_source = False
html_show_sourcelink = False


def without_signature(app, what, name, member, *_):
    # an enumeration has that of Enum
    return ("", None) if what == "class" and issubclass(member, enum.Enum) else None


def with_programs(app, what, name, member, options, lines):
    # an indented paragraph of a docstring is a program
    for at in range(len(lines) - 1, 0, -1):
        before = next((line for line in reversed(lines[:at]) if line), "")
        if lines[at].startswith("    ") and not lines[at - 1] and not before.startswith("    "):
            lines[at:at] = ["::", ""]


def setup(app):
    app.connect("autodoc-process-signature", without_signature)
    app.connect("autodoc-process-docstring", with_programs)
"""
INDEX = """\
pendratsoa for Python
=====================

.. code-block:: python

{example}

.. toctree::

   pendratsoa
   messages
"""
MODULE = """\
{name}
{line}

.. automodule:: {name}
   :members:
   :imported-members:
   :inherited-members: {ends}
   :exclude-members: {constants}

"""
CONSTANT = """\
.. py:data:: {name}
   :module: {module}{value}

   {text}

"""
BASE = """\
.. autoclass:: pendratsoa.messages.{name}
   :members:

"""


def python(made: Work) -> Undocumented:
    """The pages of Sphinx, of the package and of its records."""
    # the folder of the tool is that of the Python which has it
    tool = needs("sphinx-build", "python3-sphinx")
    folder = copy("python", made.work)
    pages = made.work / "pages"
    pages.mkdir()
    (pages / "conf.py").write_text(CONF.format(folder=str(folder), version=version()))
    lines = example("python/README.md", "python").splitlines()
    (pages / "index.rst").write_text(INDEX.format(example="\n".join(f"   {line}".rstrip() for line in lines)))
    for module in PYTHON_MODULES:
        (pages / f"{module.rpartition('.')[2]}.rst").write_text(python_page(folder / "pendratsoa", module))
    run(tool, "-q", "-b", "html", "-d", made.work / "doctrees", pages, made.out,
        PYTHONDONTWRITEBYTECODE="1", PENDRATSOA_PURE="1", LC_ALL="C.UTF-8")
    (made.out / ".buildinfo").unlink(missing_ok=True)
    missing = undocumented_python(folder / "pendratsoa")
    for module in PYTHON_MODULES:
        public = {name for of, _, name, _ in public_python(folder / "pendratsoa") if of == module}
        page = made.out / f"{module.rpartition('.')[2]}.html"
        missing += python_pages.not_shown(folder / "pendratsoa", page, module, public)
    return missing


PYTHON_MODULES = ("pendratsoa", "pendratsoa.messages")


def python_page(folder: pathlib.Path, module: str) -> str:
    """The page of a module, for Sphinx: its classes and functions, and after them its constants."""
    constants = [each[1:] for each in public_python(folder)
                 if each[0] == module and isinstance(each[1], (ast.Assign, ast.AnnAssign))]
    page = MODULE.format(name=module, line="=" * len(module), ends=", ".join(python_pages.ENDS),
                         constants=", ".join(name for _, name, _ in constants))
    if module != "pendratsoa":
        # the members of all records are shown once
        page = re.sub("   :(imported|inherited)-members:.*\n", "", page)
        page += "".join(BASE.format(name=name) for name in python_pages.BASES)
    for node, name, text in constants:
        is_type = isinstance(node.value, ast.Subscript)
        page += CONSTANT.format(name=name, module=module, text=f"{text[:1].upper()}{text[1:]}.".replace("..", "."),
                                value=f"\n   :value: {ast.unparse(node.value)}" if is_type else "")
    return page


def undocumented_python(folder: pathlib.Path) -> Undocumented:
    """The public names of a package without a docstring: what __init__.py exports, and all of messages.py."""
    missing = []
    for _, node, name, text in public_python(folder):
        missing += [] if text else [name]
        if isinstance(node, ast.ClassDef):
            missing += [f"{name}.{each}" for each in undocumented_members(node)]
    return missing


def public_python(folder: pathlib.Path) -> collections.abc.Iterator[tuple[str, ast.stmt, str, str]]:
    """The public names of a package: what __init__.py exports, and all of messages.py. Each with its module, what
    defines it, and its sentence, or ''."""
    trees = {path: ast.parse(path.read_text()) for path in sorted(folder.glob("*.py"))}
    exports = next(node for node in trees[folder / "__init__.py"].body
                   if isinstance(node, ast.Assign) and getattr(node.targets[0], "id", "") == "__all__")
    exported = set(ast.literal_eval(exports.value))
    for path, tree in trees.items():
        module = "pendratsoa.messages" if path.name == "messages.py" else "pendratsoa"
        for node, text in documented(tree.body, path.read_text().splitlines()):
            for name in defined(node):
                if name in exported or module != "pendratsoa" and not name.startswith("_"):
                    yield module, node, name, text


def documented(body: list[ast.stmt], lines: list[str]) -> collections.abc.Iterator[tuple[ast.stmt, str]]:
    """Statements, each with its docstring, with the text after it, or with the comment before it."""
    for node, after in zip(body, [*body[1:], None]):
        if isinstance(node, (ast.ClassDef, ast.FunctionDef, ast.AsyncFunctionDef)):
            yield node, ast.get_docstring(node) or ""
            continue
        before = []
        for line in reversed(lines[:node.lineno - 1]):
            if not line.startswith("#"):
                break
            before.insert(0, line.lstrip("# "))
        is_text = isinstance(after, ast.Expr) and isinstance(after.value, ast.Constant)
        yield node, str(after.value.value) if is_text else " ".join(before)


def defined(node: ast.stmt) -> list[str]:
    """The names that a statement defines."""
    if isinstance(node, (ast.ClassDef, ast.FunctionDef, ast.AsyncFunctionDef)):
        return [node.name]
    targets = node.targets if isinstance(node, ast.Assign) else [node.target] if isinstance(node, ast.AnnAssign) else []
    return [target.id for target in targets if isinstance(target, ast.Name)]


def undocumented_members(node: ast.ClassDef) -> list[str]:
    """The public members of a class that have no docstring, and are not named in that of the class. A class with one
    field has one for both."""
    found = [(name, text) for member, text in documented(node.body, []) for name in defined(member)
             if not (name.startswith("_") or name in python_pages.KNOWN)]
    said = (ast.get_docstring(node) or "").lower()
    return [name for name, text in found if not text and len(found) > 1 and name.lower() not in said]


def ruby(made: Work) -> Undocumented:
    """The pages of YARD, with comments as Markdown, which rdoc reads, and types of the signatures."""
    needs("yard", "yard")
    folder = copy("ruby", made.work)
    # what is generated says so to git, and no tag of YARD begins so
    for path in folder.glob("lib/**/*.rb"):
        path.write_text(re.sub(r"^# @generated.*\n", "", path.read_text(), flags=re.MULTILINE))
    page = "# pendratsoa for Ruby\n\n" + "".join(
        f"    {line}".rstrip() + "\n" for line in example("ruby/README.md", "ruby").splitlines())
    (folder / "START.md").write_text(page + "\n{Pendratsoa} is the module of all names.\n")
    words = ("--no-cache", "--quiet", "--no-progress", "--no-private", "--markup", "markdown", "--markup-provider",
             "rdoc", "--readme", "START.md", "--title", "pendratsoa for Ruby", "--db", made.work / "yard",
             "--load", PARTS / "returned.rb", "--default-return", "")
    # the comment of the module is that of the last file
    run("yard", "doc", *words, "-o", made.out, "lib/*/**/*.rb", "lib/*.rb", cwd=folder, LC_ALL="C.UTF-8")
    for path in made.out.rglob("*.html"):
        # the date is that of the making
        text = re.sub(r"Generated on .*? by", "Generated by", path.read_text(encoding="utf-8"), flags=re.DOTALL)
        path.write_text(text, encoding="utf-8")
    said = run("ruby", PARTS / "undocumented.rb", made.work / "yard", cwd=folder, LC_ALL="C.UTF-8").stdout
    return said.splitlines()


def typescript(made: Work) -> Undocumented:
    """One page of the declarations."""
    needs("node", "nodejs")
    modules = next((path for path in ("/usr/share/nodejs", "/usr/lib/node_modules", "/usr/local/lib/node_modules")
                    if os.path.exists(f"{path}/typescript")), None)
    if not modules:
        raise NotMade("there is no module typescript; the Debian package node-typescript has it")
    files = ("index.d.ts", "names.d.ts", "messages.d.ts")
    said = run("node", PARTS / "typescript.js", *files, cwd=ROOT / "node", NODE_PATH=modules).stdout
    found = json.loads(said)
    parts = [f"<h1>pendratsoa for TypeScript</h1>\n{block(example('node/README.md', 'ts'), 'example')}"]
    opening = re.match(r"/\*\*\n(.*?)\*/", (ROOT / "node/index.d.ts").read_text(), re.DOTALL)
    parts.append(markdown_page.converted(re.sub(r"^ \* ?", "", opening[1] if opening else "", flags=re.MULTILINE)))
    parts.append("<h2 id=\"index\">Index</h2>\n<p>" + ", ".join(
        f"<a href=\"#{each['name']}\"><code>{each['name']}</code></a>" for each in found) + "</p>")
    missing = []
    for each in found:
        parts.append(f"<h3 id=\"{each['name']}\">{each['name']} <a href=\"#{each['name']}\">¶</a></h3>")
        parts.append(block(each["text"]) + tagged(each["comment"]))
        missing += [] if each["comment"] else [each["name"]]
        if each["members"]:
            parts.append("<dl>" + "".join(
                f"<dt><code>{html.escape(member['text'])}</code></dt><dd>{tagged(member['comment'])}</dd>\n"
                for member in each["members"]) + "</dl>")
        missing += [f"{each['name']}.{member['name']}" for member in each["members"]
                    if not (member["comment"] or SAYS_ALL.search(member["text"]))]
    write(made.out / "index.html", "pendratsoa for TypeScript", "\n".join(parts))
    return missing


# A member of TypeScript whose text says all: a constructor, an iterator, literals, or a name for a record of that name.
SAYS_ALL = re.compile(r"^(constructor\(|\[Symbol)|: (Exclude<.*>|('\w+'|-?\w+)( \| ('\w+'|\w+))*);$")


def tagged(comment: str) -> str:
    """A comment whose tags are items of a list."""
    text, *tags = re.split(r"^@", comment, flags=re.MULTILINE)
    items = []
    for tag in tags:
        kind, _, rest = tag.partition(" ")
        name = re.match(r"\{?(\w+)\}? (?:- )?", rest) if kind in ("param", "throws") else None
        of = f" <code>{name[1]}</code>" if name else ""
        items.append(f"<li>{kind}{of}: {markdown_page.inline(' '.join(rest[name.end() if name else 0:].split()))}</li>")
    return markdown_page.converted(text) + (f"<ul>{''.join(items)}</ul>" if items else "")


DOXYFILE = """\
PROJECT_NAME = pendratsoa
PROJECT_NUMBER = {version}
INPUT = include start.dox
FILE_PATTERNS = *.h *.dox
FULL_PATH_NAMES = NO
OUTPUT_DIRECTORY = doxygen
OPTIMIZE_OUTPUT_FOR_C = YES
JAVADOC_AUTOBRIEF = YES
EXTRACT_ALL = YES
EXTRACT_STATIC = YES
HIDE_UNDOC_MEMBERS = NO
GENERATE_LATEX = NO
HAVE_DOT = NO
SEARCHENGINE = NO
VERBATIM_HEADERS = NO
ALIASES = generated="Generated"
INPUT_FILTER = "sed -E 's|^( *)/[*]( \\|$)|\\1/**\\2|'"
EXCLUDE_SYMBOLS = *_
QUIET = YES
WARNINGS = NO
"""


def c(made: Work) -> Undocumented:
    """The pages of Doxygen, of the headers."""
    needs("doxygen", "doxygen")
    code = example("docs/C.md", "c")
    (made.work / "start.dox").write_text(f"/** @mainpage The library for C\n@code{{.c}}\n{code}@endcode\n"
                                         "The headers are pendratsoa.h, pendratsoa_messages.h and "
                                         "pendratsoa_reader.h.\n*/\n")
    copy("include", made.work)
    (made.work / "Doxyfile").write_text(DOXYFILE.format(version=version()))
    run("doxygen", "Doxyfile", cwd=made.work)
    shutil.copytree(made.work / "doxygen" / "html", made.out)
    return [name for path in sorted((ROOT / "include").glob("*.h")) for name in undocumented_c(path.read_text())]


def undocumented_c(text: str) -> Undocumented:
    """The calls, structs and constants of a header without a comment before them; a run of constants has one."""
    missing = []
    is_after = False
    for line in text.splitlines():
        name = DECLARED_C.match(line)
        if name and not is_after:
            missing.append(next(filter(None, name.groups())))
        is_after = line.rstrip().endswith("*/") or is_after and line.startswith("#")
    return missing


# A public name of C: those that end with _ are not for callers, nor is what keeps a header from being read twice.
DECLARED_C = re.compile(r"#define (JOURNAL_\w*[^_\W])\b(?! *\\$)|[a-z][\w ]* \*?(journal_\w*[^_\W])\(|"
                        r"(?:struct|union) (journal_\w*[^_\W]) \{")


def rattle(made: Work) -> Undocumented:
    """A page for each crate that is a library: path, signature, comment, names of clauses, and where they are
    promised."""
    begins = (ROOT / "crates/readme_example/src/main.rt").read_text()
    return rattle_pages.make(ROOT, begins, lambda name, title, body: write(made.out / name, title, body))


# In this order the front page lists them, each with what its pages are.
LANGUAGES = {
    "rattle": (rattle, "Rattle", "rattle/index.html"),
    "c": (c, "C", "c/index.html"),
    "python": (python, "Python", "python/index.html"),
    "rust": (rust, "Rust", "rust/pendratsoa/index.html"),
    "go": (go, "Go", "go/index.html"),
    "ruby": (ruby, "Ruby", "ruby/index.html"),
    "typescript": (typescript, "TypeScript", "typescript/index.html"),
}


def block(code: str, kind: str = "") -> str:
    """Code as it is."""
    of = f' class="{kind}"' if kind else ""
    return f"<pre{of}>{html.escape(code)}</pre>\n"


def write(path: pathlib.Path, title: str, body: str) -> None:
    """A page of our own."""
    path.parent.mkdir(parents=True, exist_ok=True)
    style = (PARTS / "style.css").read_text()
    path.write_text(
        f'<!DOCTYPE html>\n<html lang="en">\n<head>\n<meta charset="utf-8">\n<title>{html.escape(title)}</title>\n'
        f'<meta name="viewport" content="width=device-width">\n<style>\n{style}</style>\n</head>\n<body>\n{body}\n'
        "</body>\n</html>\n", encoding="utf-8")


def made(language: str, out: pathlib.Path) -> Undocumented:
    """Makes the pages of a language below a folder, and returns the public names without a sentence."""
    with tempfile.TemporaryDirectory() as work:
        return LANGUAGES[language][0](Work(out / language, pathlib.Path(work)))


# The list of the examples, to which the front page leads.
EXAMPLES_PAGE = "examples/index.html"


def repository(out: pathlib.Path) -> None:
    """The pages and programs of the repository that the packages name, at their paths there; pages as HTML, whose links
    to others of them are links. The examples have a list."""
    named = released_pages.named()
    folder = f"{os.path.dirname(EXAMPLES_PAGE)}/"
    listed = [released_pages.archived(path).removeprefix(folder) for path in named if path.startswith(folder)]
    rows = "".join(f'<li><a href="{path}">{path.removesuffix(".html")}</a></li>\n' for path in listed)
    write(out / EXAMPLES_PAGE, "Examples", f"<h1>Examples</h1>\n<ul>\n{rows}</ul>")
    for path in named:
        target = out / released_pages.archived(path)
        target.parent.mkdir(parents=True, exist_ok=True)
        if not path.endswith(".md"):
            shutil.copyfile(ROOT / path, target)
            continue

        def to(link: str, page: str = path) -> str | None:
            file, _, anchor = link.partition("#")
            if re.match(r"https?:", link):
                return link
            found = released_pages.target(page, file)
            if found not in named:
                return None
            place = os.path.relpath(released_pages.archived(found), os.path.dirname(page))
            return f"{place}#{anchor}" if anchor else place

        text = (ROOT / path).read_text(encoding="utf-8")
        title = re.match(r"# (.*)", text)
        write(target, title[1] if title else path, markdown_page.converted(text, to))


def front(out: pathlib.Path, languages: list[str]) -> None:
    """The page that leads to the languages that were made, and to the pages of the repository that are there."""
    rows = "".join(f'<li><a href="{LANGUAGES[name][2]}">{LANGUAGES[name][1]}</a></li>\n' for name in languages)
    body = f"<h1>{TITLE} {version()}</h1>\n<p>The reference of each language:</p>\n<ul>\n{rows}</ul>"
    there = [path for path in map(released_pages.archived, released_pages.named()) if (out / path).is_file()]
    if there:
        rows = "".join(f'<li><a href="{path}">{path.removesuffix(".html").removesuffix("/index")}</a></li>\n'
                       for path in [*filter(re.compile(r"\.html$").search, there), EXAMPLES_PAGE])
        body += f"\n<p>Pages, and programs with their streams:</p>\n<ul>\n{rows}</ul>"
    write(out / "index.html", f"{TITLE} {version()}", body)


def make(out: pathlib.Path, languages: collections.abc.Iterable[str]) -> dict[str, str]:
    """Makes the pages of these languages, and returns why some are left out."""
    left_out = {}
    for language in languages:
        print(f"reference.sh: {LANGUAGES[language][1]}", file=sys.stderr, flush=True)
        try:
            made(language, out)
        except NotMade as why:
            left_out[language] = str(why)
    if set(languages) == set(LANGUAGES):
        repository(out)
    front(out, [language for language in LANGUAGES if language in languages and language not in left_out])
    return left_out


def main(words: list[str]) -> int:
    if words in (["--help"], ["--list"]):
        print(__doc__.strip() if words == ["--help"] else "\n".join(LANGUAGES))
        return 0
    usage = "reference.sh [--only LANGUAGE].. FOLDER"
    parser = argparse.ArgumentParser(prog="reference.sh", usage=usage, add_help=False)
    parser.add_argument("folder", type=pathlib.Path)
    parser.add_argument("--only", action="append", choices=LANGUAGES)
    options = parser.parse_args(words)
    out = options.folder.resolve()
    if out.exists() and (not out.is_dir() or any(out.iterdir())):
        print(f"reference.sh: {out} is there, and is not an empty folder", file=sys.stderr)
        return 2
    for language, why in make(out, options.only or list(LANGUAGES)).items():
        print(f"reference.sh: {language}: not made, since {why}", file=sys.stderr)
    print(out / "index.html")
    return 0


if __name__ == "__main__":
    sys.exit(main(sys.argv[1:]))
