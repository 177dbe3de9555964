"""The pages of the crates for Rattle: path, signature, comment, the names of clauses, and where each is promised."""
from __future__ import annotations

import collections.abc
import dataclasses
import html
import pathlib
import re

import markdown_page

# What is public, with what a reader calls it.
ITEM = re.compile(r"pub (?:unsafe )?(?:extern \"C\" )?(fn|struct|enum|trait|const|static|type) (\w+)")
GENERIC = re.compile(r"(fn) (\w+)")
CLAUSE = re.compile(r"(requires|ensures)(?: (\w+))? \{")


@dataclasses.dataclass
class Item:
    """A public item, or a public member of one."""

    kind: str
    name: str
    comment: str
    text: str
    clauses: list[str] = dataclasses.field(default_factory=list)
    members: list[Item] = dataclasses.field(default_factory=list)


@dataclasses.dataclass
class Module:
    """A module: its comment, its public items, the modules within, and what it re-exports."""

    comment: str = ""
    items: dict[str, Item] = dataclasses.field(default_factory=dict)
    impls: list[tuple[str, Item | None, list[Item]]] = dataclasses.field(default_factory=list)
    modules: dict[str, Module] = dataclasses.field(default_factory=dict)
    public: set[str] = dataclasses.field(default_factory=set)
    uses: list[tuple[str, str]] = dataclasses.field(default_factory=list)


class Lines:
    """The lines of a file, read from the first to the last."""

    def __init__(self, text: str):
        self.lines = text.splitlines()
        self.at = 0

    def more(self) -> bool:
        return self.at < len(self.lines)

    def next(self) -> str:
        self.at += 1
        return self.lines[self.at - 1]

    def skip_to(self, ends: collections.abc.Callable[[str], bool]) -> list[str]:
        """The lines up to and with the first for which this is so."""
        found = []
        while self.more():
            found.append(self.next())
            if ends(found[-1]):
                break
        return found


def balance(text: str) -> int:
    """How many brackets of any kind are open."""
    plain = re.sub(r"b?'(\\.|[^\\'])'|\"(\\.|[^\\\"])*\"|//.*", "", text)
    return sum(plain.count(one) for one in "([{") - sum(plain.count(one) for one in ")]}")


def declaration(lines: Lines, first: str, indent: str) -> tuple[str, list[str], bool]:
    """The signature that begins on a line, the clauses after it, and whether a body is open then."""
    signature = [first]
    while balance("\n".join(signature)) > 1 or not re.search(r"[{;}]$", signature[-1]):
        if not lines.more() or re.match(rf"{indent}    (requires|ensures)\b", lines.lines[lines.at]):
            break
        if lines.lines[lines.at] in (f"{indent}{{", f"{indent}{{}}"):
            break
        signature.append(lines.next())
    text = "\n".join(line.removeprefix(indent) for line in signature)
    if text.endswith(";"):
        return text, [], False
    if text.endswith("{}"):
        return text.removesuffix("{}").rstrip(), [], False
    if text.endswith("{"):
        return text.removesuffix("{").rstrip(), [], True
    clauses = []
    said = ""
    while lines.more():
        line = lines.next()
        if line == f"{indent}{{":
            return text, clauses, True
        if line == f"{indent}{{}}":
            return text, clauses, False
        clause = CLAUSE.match(line.strip())
        if clause and line.startswith(f"{indent}    ") and not line.startswith(f"{indent}     "):
            clauses.append(clause[1] if not clause[2] else f"{clause[1]} {clause[2]}")
        said += f"{line}\n"
        if balance(said) == 0 and line.endswith(";"):
            return text, clauses, False
    return text, clauses, False


def members(lines: Lines, is_trait: bool) -> list[Item]:
    """The public functions and constants of a block whose first line was read, up to its end."""
    found: list[Item] = []
    comment: list[str] = []
    plain: list[str] = []
    while lines.more():
        line = lines.next()
        if line == "}":
            break
        words = line.strip()
        if words.startswith("//"):
            (comment if words.startswith("///") else plain).append(re.sub("^///? ?", "", words))
            continue
        if words.startswith("#["):
            while balance(words) > 0 and lines.more():
                words += lines.next()
            continue
        item = ITEM.match(words) or (GENERIC.match(words) if is_trait else None)
        if item and line.startswith("    ") and not line.startswith("     "):
            text, clauses, is_open = declaration(lines, line, "    ")
            if is_open:
                lines.skip_to(lambda each: each == "    }")
            found.append(Item(item[1], item[2], "\n".join(comment), text, clauses))
        elif is_trait and (law := re.match(r"ghost (\w+)(?:[^:=]*): ", words)):
            lines.at -= 1
            said = ""
            while lines.more():
                said += lines.next() + "\n"
                if balance(said) == 0 and said.rstrip().endswith(";"):
                    break
            found.append(Item("law", law[1], "\n".join(comment or plain), f"ghost {law[1]}"))
        elif words.startswith("ghost ") and not words.endswith(";"):
            said = words
            while (balance(said) > 0 or not said.endswith(";")) and lines.more():
                said += "\n" + lines.next().rstrip()
        elif re.match(r"(?:pub\(crate\) )?(?:const )?(?:unsafe )?fn ", words):
            _, _, is_open = declaration(lines, line, "    ")
            if is_open:
                lines.skip_to(lambda each: each == "    }")
        comment, plain = [], []
    return found


def fields(text: str, kind: str) -> list[Item]:
    """The public fields of a struct, or the variants of an enum."""
    found = []
    comment: list[str] = []
    for line in text.splitlines()[1:]:
        words = line.strip()
        if words.startswith("///"):
            comment.append(words.removeprefix("///").removeprefix(" "))
            continue
        name = re.match(r"pub (\w+):" if kind == "struct" else r"([A-Z]\w*)", words)
        if name and line.startswith("    ") and not line.startswith("     "):
            found.append(Item("field", name[1], "\n".join(comment), words.rstrip(",{ ")))
        if not words.startswith("#["):
            comment = []
    return found


def parsed(text: str) -> Module:
    """The module of a file."""
    module = Module()
    lines = Lines(text)
    comment: list[str] = []
    while lines.more():
        line = lines.next()
        if line.startswith("//!"):
            module.comment += line.removeprefix("//!").removeprefix(" ") + "\n"
            continue
        if line.startswith("//"):
            comment += [re.sub("^/// ?", "", line)] if line.startswith("///") else []
            continue
        if line.startswith("#["):
            while balance(line) > 0 and lines.more():
                line += lines.next()
            continue
        use = re.match(r"pub use (.*)", line)
        within = re.match(r"(pub )?mod (\w+);", line)
        item = ITEM.match(line)
        if within:
            if within[1]:
                module.public.add(within[2])
            module.modules[within[2]] = Module()
        elif use:
            said = use[1]
            while not said.endswith(";"):
                said += lines.next().strip() + " "
                said = said.rstrip()
            module.uses += used(said.rstrip(";"))
        elif item:
            module.items[item[2]] = top_item(lines, line, item, "\n".join(comment))
        elif line.startswith("impl"):
            read_impl(lines, line, module)
        elif line.startswith("ghost ") and not line.endswith(";"):
            lines.skip_to(lambda each: each.endswith(";"))
        elif re.match(r"(?:pub\(crate\) )?(?:unsafe )?fn ", line):
            _, _, is_open = declaration(lines, line, "")
            if is_open:
                lines.skip_to(lambda each: each == "}")
        comment = []
    return module


def top_item(lines: Lines, line: str, item: re.Match[str], comment: str) -> Item:
    """The item that begins on a line."""
    kind, name = item[1], item[2]
    if kind == "fn":
        text, clauses, is_open = declaration(lines, line, "")
        if is_open:
            lines.skip_to(lambda each: each == "}")
        return Item(kind, name, comment, text, clauses)
    if kind == "trait":
        while not line.endswith(("{", "{}")):
            line += "\n" + lines.next()
        found = Item(kind, name, comment, line.rstrip("{} "))
        if not line.endswith("{}"):
            found.members = members(lines, True)
        return found
    text = line
    while balance(text) > 0 or not re.search(r"[;}]$", text):
        text += "\n" + lines.next()
    found = Item(kind, name, comment, text)
    if kind in ("struct", "enum"):
        found.members = fields(text, kind)
        found.text = text.partition("{")[0].strip() if "{" in text else text
    elif kind in ("const", "static") and len(text) > 200:
        found.text = text.partition(" = ")[0]
    return found


def read_impl(lines: Lines, line: str, module: Module) -> None:
    """An impl: the public functions of a type, or the trait that it implements."""
    while not line.rstrip().endswith(("{", "{}")):
        line += " " + lines.next().strip()
    head = line.rstrip("{} ")
    of_trait = re.match(r"impl(?:<.*?>)? (.+?) for (\w+)", head)
    target = of_trait[2] if of_trait else re.sub(r"^impl(<[^ ]*>)? ", "", head)
    target = re.match(r"\w+", target)[0] if re.match(r"\w+", target) else ""
    found = members(lines, False) if not line.endswith("{}") else []
    implemented = None
    if of_trait and of_trait[1].partition("<")[0] not in ("Model", "Drop"):
        implemented = Item("impl", of_trait[1], "", head)
    module.impls.append((target, implemented, found if not of_trait else []))


def used(text: str, prefix: str = "") -> list[tuple[str, str]]:
    """What a `use` names: each path, and the name that it gets."""
    group = re.match(r"(.*?)\{(.*)\}$", text, re.DOTALL)
    if group:
        names = [name.strip() for name in group[2].split(",") if name.strip()]
        return [pair for name in names for pair in used(name, prefix + group[1])]
    path, _, alias = text.partition(" as ")
    whole = prefix + path.strip()
    return [(whole, alias.strip() or whole.rpartition("::")[2])]


def crate_of(folder: pathlib.Path) -> Module:
    """The modules of a crate, from its lib.rt on."""

    def read(file: pathlib.Path, within: pathlib.Path) -> Module:
        module = parsed(file.read_text())
        for name in module.modules:
            module.modules[name] = read(within / f"{name}.rt", within / name)
        return module

    return read(folder / "lib.rt", folder)


class Crates:
    """All crates that are libraries, by which a path is found."""

    def __init__(self, top: pathlib.Path):
        self.groups: list[tuple[str, list[str]]] = []
        for line in (top / "crates.txt").read_text().splitlines():
            if line.startswith("# "):
                self.groups.append((line.removeprefix("# "), []))
            elif ":" in line and self.groups:
                self.groups[-1][1].append(line.split(":")[0].split()[0])
        # what a program of Rattle calls: not programs, nor what C calls
        self.groups = [group for group in self.groups[1:] if "rogram" not in group[0] and "for C" not in group[0]
                       and "easuring" not in group[0]]
        self.names = [name for _, names in self.groups for name in names]
        self.modules = {name: crate_of(top / "crates" / name / "src") for name in self.names}
        self.places: dict[int, str] = {}
        for name in self.names:
            self.place(self.modules[name], name)

    def place(self, module: Module, path: str) -> None:
        """Notes where each item is defined, and adds what is implemented for it."""
        for item in module.items.values():
            self.places[id(item)] = path
        for name, within in module.modules.items():
            self.place(within, f"{path}::{name}")

    def found(self, path: str, here: Module, crate: str) -> Item | Module | None:
        """The item or the module that a path names."""
        first, *rest = path.split("::")
        start: Module | None = self.modules[crate] if first == "crate" else self.modules.get(first)
        if start is None and first in here.modules:
            start = here.modules[first]
        elif start is None:
            return self.inside(here, [first, *rest], crate)
        owner = crate if first == "crate" or first in here.modules else first
        return self.inside(start, rest, owner) if rest else start

    def inside(self, module: Module, names: list[str], crate: str) -> Item | Module | None:
        """The item or the module that these names lead to from a module."""
        name, *rest = names
        if name in module.modules:
            return self.inside(module.modules[name], rest, crate) if rest else module.modules[name]
        if name in module.items and not rest:
            return module.items[name]
        for path, alias in module.uses:
            if alias == name:
                found = self.found(path, module, crate)
                if isinstance(found, Module) and rest:
                    return self.inside(found, rest, path.split("::")[0])
                return found if not rest else None
        return None

    def public(self, module: Module, path: str, crate: str) -> collections.abc.Iterator[tuple[str, Module | Item]]:
        """The public paths of a crate, each with what is there."""
        yield path, module
        for name, item in module.items.items():
            yield f"{path}::{name}", item
        for use, alias in module.uses:
            found = self.found(use, module, crate)
            if isinstance(found, Item):
                yield f"{path}::{alias}", found
            elif isinstance(found, Module):
                yield from self.public(found, f"{path}::{alias}", use.split("::")[0])
        for name in module.modules:
            if name in module.public:
                yield from self.public(module.modules[name], f"{path}::{name}", crate)


def promised(top: pathlib.Path) -> tuple[str, dict[str, list[tuple[str, str]]]]:
    """The page on what is proved, with an anchor for each row of a promise, and for each name the rows that have it."""
    page = (top / "docs" / "PROOFS.md").read_text()
    rows: dict[str, list[tuple[str, str]]] = {}
    out = []
    for part in re.split(r"^(?=## )", page, flags=re.MULTILINE):
        crate = re.match(r"## (\w+)", part)
        crate_name = crate[1] if crate else ""
        blocks = re.split(r"(^(?:\|.*\n)+)", part, flags=re.MULTILINE)
        count = 0
        for block in blocks:
            if not block.startswith("|"):
                out.append(markdown_page.converted(block))
                continue
            ids = []
            for line in block.splitlines()[2:]:
                count += 1
                ids.append(f"{crate_name or 'row'}-{count}")
                for name in re.findall(r"[A-Za-z_]\w*", " ".join(markdown_page.cells(line)[-1].split("`")[1::2])):
                    rows.setdefault(name, []).append((ids[-1], crate_name))
            out.append(markdown_page.table(block.splitlines(), ids if crate_name else None))
    return "\n".join(out), rows


def make(
    top: pathlib.Path, example: str, write: collections.abc.Callable[[str, str, str], None]
) -> list[str]:
    """Writes the pages, and returns the public items without a sentence."""
    crates = Crates(top)
    page, rows = promised(top)
    write("PROOFS.html", "What is proved", page)
    sentences = dict(re.findall(r"^\| `(\w+)` \| (.*) \|$", (top / "crates/README.md").read_text(), re.MULTILINE))
    parts = [f"<h1>Pendratsoa for Rattle</h1>\n<pre class=\"example\">{html.escape(example)}</pre>\n"
             "<p>It is <code>readme_example</code>, which the gate proves and runs. A program depends on "
             '<a href="shared_core.html"><code>shared_core</code></a>. <a href="PROOFS.html">What is proved</a> has '
             "the promises that the names of clauses carry.</p>\n"]
    missing: list[str] = []
    for group, names in crates.groups:
        parts.append(f"<h2>{html.escape(group)}</h2>\n<dl>")
        for name in names:
            parts.append(f'<dt><a href="{name}.html"><code>{name}</code></a></dt>'
                         f"<dd>{markdown_page.inline(sentences.get(name, ''))}</dd>")
            body, without = crate_page(crates, name, rows)
            write(f"{name}.html", f"{name}: Pendratsoa for Rattle", body)
            missing += without
        parts.append("</dl>")
    write("index.html", "Pendratsoa for Rattle", "\n".join(parts))
    return missing


def crate_page(
    crates: Crates, crate: str, rows: dict[str, list[tuple[str, str]]]
) -> tuple[str, list[str]]:
    """The page of a crate, and its public items without a sentence."""
    missing: list[str] = []
    parts = [f"<h1>{crate}</h1>\n{markdown_page.converted(crates.modules[crate].comment)}"
             '<p><a href="index.html">All crates</a></p>']
    first = parts.pop()
    listed = list(dict(crates.public(crates.modules[crate], crate, crate)).items())
    index = "".join(f'<li><a href="#{path}"><code>{path}</code></a></li>\n' for path, found in listed
                    if isinstance(found, Item))
    parts += [first, f"<details><summary>{index.count('<li>')} public items</summary>\n<ul>\n{index}</ul></details>"]
    impls = [each for module in all_modules(crates.modules[crate]) for each in module.impls]
    for path, found in listed:
        if isinstance(found, Module):
            if path != crate:
                parts.append(f'<h2 id="{path}">Module {path}</h2>\n{markdown_page.converted(found.comment)}')
            continue
        place = crates.places.get(id(found), "")
        home = place.split("::")[0]
        parts.append(f'<h3 id="{path}">{html.escape(found.kind)} {path} <a href="#{path}">¶</a></h3>')
        if home and home != crate:
            # its definition is on the page of its crate
            defined = next((each for each, item in crates.public(crates.modules[home], home, home) if item is found),
                           None)
            link = f'<a href="{home}.html#{defined}"><code>{defined}</code></a>' if defined else f"<code>{home}</code>"
            parts.append(f"<p>{markdown_page.inline(first_sentence(found.comment))}</p>\n<p>It is {link}.</p>"
                         + ("" if defined else rendered(found, rows, home)))
            continue
        parts.append(rendered(found, rows, crate))
        missing += undocumented(path, found)
        own = [each for target, _, within in impls if target == found.name for each in within]
        for member in own:
            parts.append(f'<h4 id="{path}::{member.name}">{path}::{member.name} '
                         f'<a href="#{path}::{member.name}">¶</a></h4>{rendered(member, rows, crate)}')
            missing += undocumented(f"{path}::{member.name}", member)
        of_traits = sorted({each.name for target, each, _ in impls if each and target == found.name})
        if of_traits:
            shown = ", ".join(f"<code>{html.escape(each)}</code>" for each in of_traits)
            parts.append(f"<p>Implements {shown}.</p>")
    return "\n".join(parts), missing


def all_modules(module: Module) -> collections.abc.Iterator[Module]:
    yield module
    for within in module.modules.values():
        yield from all_modules(within)


def first_sentence(comment: str) -> str:
    return re.split(r"(?<=[.:])\s", comment.strip(), maxsplit=1)[0]


# A field whose type tells what it is.
OF_A_TYPE = re.compile(r": (?!String|Vec|Bytes|Option)[A-Z]\w+$")


def undocumented(path: str, item: Item) -> list[str]:
    """The item, and its functions and fields, that have no sentence. The variants of an enum have that of the enum, and
    the fields of a struct that of the struct where none has its own."""
    missing = [] if item.comment.strip() else [path]
    if item.kind == "struct" and not any(member.comment.strip() for member in item.members):
        return missing
    if item.kind == "trait":
        missing += [f"{path}::{member.name}" for member in item.members if not member.comment.strip()]
    if item.kind == "struct":
        missing += [f"{path}.{member.name}" for member in item.members
                    if not member.comment.strip() and not OF_A_TYPE.search(member.text)]
    return missing


def rendered(item: Item, rows: dict[str, list[tuple[str, str]]], crate: str) -> str:
    """The signature, the comment, the members, the names of clauses and the promises of an item."""
    parts = [f"<pre>{html.escape(item.text)}</pre>\n{markdown_page.converted(item.comment)}"]
    if item.clauses:
        clauses = ", ".join(f"<code>{each}</code>" for each in item.clauses)
        parts.append(f'<p class="clauses">Clauses: {clauses}</p>')
    names = [each for each, of in rows.get(item.name, []) if of == crate or not of] or \
        [each for each, _ in rows.get(item.name, [])]
    if names:
        links = ", ".join(f'<a href="PROOFS.html#{each}">{each}</a>' for each in dict.fromkeys(names))
        parts.append(f'<p class="clauses">Promised in {links}</p>')
    if item.members and item.kind != "fn":
        parts.append("<dl>" + "".join(
            f"<dt><code>{html.escape(member.text)}</code></dt><dd>{markdown_page.converted(member.comment)}"
            + (f'<p class="clauses">Clauses: {", ".join(member.clauses)}</p>' if member.clauses else "")
            + "</dd>\n" for member in item.members) + "</dl>")
    return "\n".join(parts)
