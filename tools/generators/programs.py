"""The definitions of the programs' command lines for clap, and what completions, man pages and pages take of the
description of the programs."""
import functools
import pathlib
import re
import textwrap
import tomllib

from . import ROOT, Refused, laid_out
from . import missing_rt as missing  # noqa: F401
from .proto import typed
from .record_vectors import LAST_VERSION
from .versions import library_version

ABOUT = "The definitions of the programs' command lines."
SOURCE = "proto/programs.toml"

# The crates of programs, what is installed with completion of its own, and the program that has subcommands.
CRATES = ("journal", "journal_list")
INSTALLED = (*CRATES, "journal_view")
JOURNAL = "journal"

# The columns of a help at most.
WIDTH = 80

# The versions of the protocol that a program takes.
VERSIONS = [str(number) for number in range(5, LAST_VERSION + 1)]

KEYS = {"help", "page", "value", "values", "completed", "default", "repeated", "required", "hyphen"}


class Argument:
    """An option, which has a long name, or an operand."""

    def __init__(self, name, entry, is_option):
        if unknown := entry.keys() - KEYS:
            raise Refused([f"{SOURCE}: {name} has {', '.join(sorted(unknown))}"])
        if lacks := {"help", "page", *(() if is_option else ("value",))} - entry.keys():
            raise Refused([f"{SOURCE}: {name} lacks {', '.join(sorted(lacks))}"])
        values = entry.get("values", [])
        if isinstance(values, str) and values not in ("versions", "versions or auto"):
            raise Refused([f"{SOURCE}: {name} has the values {values}, which are neither a list nor the versions"])
        self.name = name
        self.is_option = is_option
        self.help = entry["help"]
        self.page = entry["page"]
        self.value = entry.get("value")
        self.has_versions = entry.get("values") == "versions"
        self.takes_auto = entry.get("values") == "versions or auto"
        if self.has_versions or self.takes_auto:
            self.values = [*VERSIONS, "auto"] if self.takes_auto else VERSIONS
        else:
            self.values = entry.get("values", [])
        self.default = entry.get("default")
        self.is_repeated = entry.get("repeated", False)
        self.is_required = entry.get("required", False)
        self.may_begin_with_hyphen = entry.get("hyphen", False)
        if self.values and self.default is not None and self.default not in self.values:
            raise Refused([f"{SOURCE}: {name} has the default {self.default}, which is none of its values"])
        completed = entry.get("completed", self.values)
        # what completion offers; nothing for the name of a file
        self.completed = [message.type_name() for message in typed()] if completed == "types" else completed
        self.is_file = not is_option and "completed" not in entry and not self.values

    def shown_width(self):
        """How wide the help shows it, before the text."""
        if not self.is_option:
            return len(f"[{self.value}]")
        # there is room for a letter before the name
        return len(f"    --{self.name} <{self.value}>" if self.value else f"    --{self.name}")

    def help_lines(self, taken):
        """Its text of the help, in lines next to those that show it, which take so many columns: what clap would append
        is in it, since clap breaks no line."""
        values = [f"[default: {self.default}]"] if self.default is not None else []
        values += [f"[possible values: {', '.join(self.values)}]"] if self.values else []
        lines = textwrap.wrap(self.help, WIDTH - taken)
        more = textwrap.wrap(" ".join(values), WIDTH - taken)
        if more and len(f"{lines[-1]} {more[0]}") <= WIDTH - taken:
            lines[-1] += f" {more.pop(0)}"
        return "\n".join([*lines, *more])

    def definition(self, taken):
        """It as data, next to arguments that the help shows in so many columns."""
        if not self.is_option:
            form = f"Form::Operand({quoted(self.value)})"
        elif self.value is None:
            form = "Form::Flag"
        else:
            form = f"Form::Option({quoted(self.value)})"
        values = "Values::Any"
        if self.values:
            among = f"Values::Among(&[{', '.join(map(quoted, self.values))}])"
            values = "Values::Versions" if self.has_versions else among
        default = "None" if self.default is None else f"Some({quoted(self.default)})"
        return (
            f"Argument {{ name: {quoted(self.name)}, form: {form}, help: {quoted(self.help_lines(taken))}, "
            f"values: {values}, default: {default}, is_repeated: {str(self.is_repeated).lower()}, "
            f"is_required: {str(self.is_required).lower()}, "
            f"may_begin_with_hyphen: {str(self.may_begin_with_hyphen).lower()} }}"
        )

    def shown_value(self, is_whole):
        """Its value as a page shows it; where it is said whole, by all that it may be."""
        if self.has_versions or self.takes_auto:
            return f"{VERSIONS[0]}..{VERSIONS[-1]}{'|auto' if self.takes_auto else ''}"
        return "|".join(self.values) if is_whole and self.values else self.value

    def synopsis(self):
        """It in the line of a program's usage."""
        text = self.value if not self.is_option else f"--{self.name}"
        if self.is_option and self.value:
            text += f" {self.shown_value(False)}"
        text = text if self.is_required else f"[{text}]"
        return f"{text}.." if self.is_repeated else text

    def tag(self):
        """It at the head of what a page says of it."""
        if not self.is_option:
            return f"`{self.value}`"
        return f"`--{self.name}{f' {self.shown_value(True)}' if self.value else ''}`"


class Program:
    """A program, or a subcommand of journal, by the name under which it is installed, or else by its own."""

    def __init__(self, name, entry):
        self.name = name
        self.crate = entry["crate"]
        self.about = entry["about"]
        self.more = entry.get("more")
        self.examples = entry.get("examples", [])
        # the program whose man page and whose section of a page have it too
        self.host = entry.get("host")
        self.options = [Argument(long, each, True) for long, each in entry.get("options", {}).items()]
        self.operands = [Argument(id, each, False) for id, each in entry.get("operands", {}).items()]

    @property
    def arguments(self):
        return [*self.options, *self.operands]

    @property
    def is_subcommand(self):
        return self.crate == JOURNAL and self.name != JOURNAL

    @property
    def command(self):
        """The subcommand's name; what a program without subcommands does, in one word."""
        return self.name.removeprefix(f"{JOURNAL}_")

    @property
    def is_installed(self):
        """Whether it is installed by its name, and is not a subcommand only."""
        return self.name.startswith(JOURNAL)

    @property
    def page_name(self):
        """What its man page is called, so that `man journal COMMAND` finds that of a subcommand."""
        return self.name if self.is_installed else f"{JOURNAL}_{self.name}"

    @property
    def function(self):
        """What a shell's functions for it are called."""
        return self.name if self.is_installed else f"{JOURNAL}_command_{self.name}"

    @property
    def called(self):
        """How it is called: a subcommand after the program's name."""
        return f"{JOURNAL} {self.command}" if self.is_subcommand else self.name

    def synopses(self):
        """How it is used, in one line per name by which it is called."""
        if self.name == JOURNAL:
            return [f"{JOURNAL} COMMAND [ARGUMENT].."]
        words = [argument.synopsis() for argument in self.arguments]
        names = dict.fromkeys([self.called, self.name] if self.is_installed else [self.called])
        return [" ".join([name, *words]) for name in names]

    def with_guests(self):
        """The subcommands that its man page and its section of a page have too, and itself."""
        return [*(each for each in programs() if each.host == self.name), self]

    def items(self):
        """What a page says of each argument, or of each subcommand: its tag, and a text."""
        if self.name == JOURNAL:
            return [(f"`{each.command}`", each.about) for each in subcommands()]
        return [(argument.tag(), argument.page) for argument in self.arguments]

    def all_items(self):
        """The same, with what every program has."""
        common_item = [] if self.name == JOURNAL else [("`--help`, `--version`", common()["page"])]
        return [*self.items(), *common_item]

    def after_help(self):
        """What the help ends with."""
        parts = [textwrap.fill(self.more, WIDTH)] if self.more else []
        parts += ["\n  ".join(["Examples:", *self.examples])] if self.examples else []
        return "\n\n".join(parts)

    def arguments_as_data(self):
        return [code for part in (self.options, self.operands) for code in definitions_of(part)]

    @property
    def constant(self):
        """What its definition is called in the sources."""
        return self.command.upper()

    def definition(self, shared):
        """Its definition as data. Arguments that other programs have too are constants."""
        arguments = ", ".join(shared.get(code, code) for code in self.arguments_as_data())
        return (
            f"/// The definition of `{self.called}`.\n"
            f"pub static {self.constant}: Definition = Definition {{ version: VERSION, about: {quoted(self.about)}, "
            f"after_help: {quoted(self.after_help())}, arguments: &[{arguments}] }};\n"
        )


def quoted(text):
    """A literal of Rattle."""
    return '"' + text.replace("\\", "\\\\").replace('"', '\\"').replace("\n", "\\n") + '"'


def definitions_of(arguments):
    """Options, or operands, whose texts begin in one column, as data."""
    taken = max((argument.shown_width() for argument in arguments), default=0) + 4
    return [argument.definition(taken) for argument in arguments]


def heading(program):
    """The heading above its arguments in the man page."""
    return "COMMANDS" if program.name == JOURNAL else "OPTIONS"


@functools.cache
def described():
    """What the file says."""
    with (ROOT / SOURCE).open("rb") as file:
        try:
            return tomllib.load(file)
        except tomllib.TOMLDecodeError as error:
            raise Refused([f"{SOURCE}: {error}"]) from None


def common():
    """What every program has: the help and the version."""
    return described()["common"]


@functools.cache
def programs():
    """The programs and the subcommands, in their order."""
    return [Program(name, entry) for name, entry in described().items() if name != "common"]


def subcommands():
    return [program for program in programs() if program.is_subcommand]


def program(name):
    return next(each for each in programs() if each.name == name)


def shared_arguments(own):
    """The names of the constants for the arguments that more than one of these programs have, by their data."""
    users = {}
    for each in own:
        for code in each.arguments_as_data():
            users.setdefault(code, []).append(each)
    names = {}
    taken = {each.constant for each in own}
    for code, each in users.items():
        if len(each) > 1:
            name = re.search('name: "(.*?)"', code)[1].upper().replace("-", "_")
            names[code] = f"{name}_OF_{each[0].constant}" if name in taken else name
            taken.add(name)
    return names


def definitions(crate):
    """The file with the definitions of a crate's command lines."""
    own = [each for each in programs() if each.crate == crate]
    shared = shared_arguments(own)
    code = [f"const {name}: Argument = {code};\n" for code, name in shared.items()]
    code += [each.definition(shared) for each in own]
    return (
        "//! The definitions of the command lines.\n\n"
        "use command_line::{Argument, Definition, Form, Values};\n\n"
        f"const VERSION: &str = {quoted(library_version())};\n\n{chr(10).join(code)}"
    )


def paths():
    return [f"crates/{crate}/src/definitions.rt" for crate in CRATES]


def files():
    return laid_out({path: definitions(pathlib.PurePath(path).parts[1]) for path in paths()})
