"""The C calls as the WebAssembly module has them for JavaScript, from proto/calls.json: its functions in C, which
take numbers of 32 bits and return doubles, and the functions of the package for Node over them, which take what those
of its addon take.
"""
from . import missing  # noqa: F401
from .calls import BITS, c_declaration, filled
from .calls_data import PATH, calls, camel, structs

ABOUT = "The calls of the WebAssembly module, in C and in JavaScript."
SOURCE = PATH

C_HEAD = """\
/*
 * The calls of pendratsoa.h for JavaScript, without a bigint: addresses, lengths and other numbers have 32 bits, a
 * result is a double. Results are below 2^53, and what the module is given is below 2^31.
 */
#define EXPORT(name) __asm__(".export_name " #name ", " #name);
typedef unsigned char uint8_t;
typedef unsigned short uint16_t;
typedef unsigned uint32_t;
typedef long long int64_t;
typedef unsigned long long uint64_t;
typedef __SIZE_TYPE__ size_t;
"""

def c_struct(entry):
    fields = "".join(f"    uint64_t {field};\n" for field, _ in entry["fields"])
    return f"\nstruct journal_{entry['struct']} {{\n{fields}}};\n"


def c_call(call):
    """A function that JavaScript calls."""
    words = [(name, f"(uint16_t){name}" if BITS[name] == 16 else name) for name in call.takes]

    def slice_of(kind, name, count):
        words.extend([(name, f"({kind} *)(size_t){name}"), (count, count)])

    if call.entries:
        slice_of(f"const struct journal_{call.entries}", f"{call.entries}s", "count")
    for name in call.reads:
        slice_of("const uint8_t", name, "length" if name == "bytes" else f"{name}_length")
    if call.flag:
        words.append((call.flag, call.flag))
    if call.given:
        slice_of(f"{'' if call.changes else 'const '}struct journal_{call.given}", call.given, f"{call.given}_room")
    if call.numbers:
        slice_of(f"struct journal_{call.numbers}", call.numbers, f"{call.numbers}_room")
    if call.table:
        slice_of(f"struct journal_{call.table}", f"{call.table}s", "room")
    if call.writes:
        slice_of("uint8_t", "out", "room")
    start = f"double js_{call.call}("
    head = filled(", ".join(f"uint32_t\u00a0{name}" for name, _ in words) + ")\u00a0{", start, " " * len(start))
    start = f"    return (double){call.symbol()}("
    passed = ", ".join(word.replace(" ", "\u00a0") for _, word in words)
    made = filled(f"{passed});", start, " " * len(start))
    text = f"\n{c_declaration(call)}EXPORT(js_{call.call})\n{head}\n{made}\n}}\n"
    return text.replace("\u00a0", " ")


def c_calls():
    return C_HEAD + "".join(map(c_struct, structs().values())) + "".join(map(c_call, calls()))


JS_HEAD = """\
// The calls of the library over its WebAssembly module: the functions that the addon in C has, with the same parameters
// in the same order. What a call gives and takes is in room of the module's memory meanwhile.

import {
  aligned,
  bytesIn,
  codeIn,
  finished,
  firstOf,
  flagIn,
  instance,
  numbersIn,
  putBytes,
  putNumbers,
  reserve,
  schemaIn,
  sizeIn,
  takeBytes,
  takeNumbers,
  versionIn,
} from './module_memory.js';
import { NO_MEMORY } from './declared.js';
"""

# The names of arguments that messages have, where they are others than those of the calls.
NAMES = {"limit": "maxMessageSize"}


class Function:
    """A function of JavaScript, as it is written: what it takes, and where that is in the room."""

    def __init__(self, name):
        self.name = name
        self.parameters, self.checks, self.lengths = [], [], []
        # what is in the room: its name, how many bytes it takes, what is put there
        self.slices, self.puts, self.given = [], [], []
        self.takes, self.result = [], "returned"

    def number(self, name):
        self.parameters.append(name)
        check = {"version": "versionIn", "schema": "schemaIn", "code": "codeIn"}.get(name)
        self.checks.append(f"{check}({name})" if check else f"sizeIn('{name}', {name})")
        self.given.append(name)

    def bytes(self, name):
        self.length_of(name, f"bytesIn('{name}', {name})")
        self.slices.append((name, f"{name}Length"))
        self.puts.append(f"putBytes({name}, {name}Length, {name}At);")
        self.given += [f"{name}At", f"{name}Length"]

    def flag(self, name):
        self.parameters.append(name)
        self.lengths.append(f"flagIn('{name}', {name});")
        self.given.append(f"{name} ? 1 : 0")

    def numbers(self, name, count, is_written=True):
        """The numbers of a struct. What a call leaves as it is comes back as it was."""
        self.length_of(name, f"Math.min(numbersIn('{name}', {name}), {count})")
        self.slices.append((name, f"8 * {name}Length"))
        self.puts.append(f"putNumbers({name}, {name}Length, {name}At);")
        self.given += [f"{name}At", f"{name}Length"]
        if is_written:
            self.takes.append(f"takeNumbers({name}, returned < 0 ? 0 : {name}Length, {name}At);")

    def entries(self, count):
        """A table that a call reads."""
        self.length_of("fields", "numbersIn('fields', fields)")
        self.slices.append(("fields", "8 * fieldsLength"))
        self.puts.append("putNumbers(fields, fieldsLength, fieldsAt);")
        self.given += ["fieldsAt", f"Math.floor(fieldsLength / {count})"]

    def table(self, count):
        """A table that a call writes, as many entries as it returns or there is room for."""
        self.length_of("numbers", f"Math.floor(numbersIn('numbers', numbers) / {count})")
        self.slices.append(("numbers", f"{8 * count} * numbersLength"))
        self.given += ["numbersAt", "numbersLength"]
        taken = f"{count} * Math.min(Math.max(returned, 0), numbersLength)"
        self.takes.append(f"takeNumbers(numbers, {taken}, numbersAt);")

    def out(self):
        self.length_of("out", "bytesIn('out', out)")
        self.slices.append(("out", "outLength"))
        self.given += ["outAt", "outLength"]
        self.takes.append("takeBytes(returned, out, outLength, outAt);")

    def length_of(self, name, length):
        self.parameters.append(name)
        self.lengths.append(f"const {name}Length = {length};")

    def text(self, function):
        checks = ", ".join(self.checks)
        lines = [f"const refused = {checks if len(self.checks) == 1 else f'firstOf({checks})'};"] if checks else []
        lines += self.lengths
        lines += ["if (refused !== 0) {", "  return refused;", "}"] if checks else []
        if self.slices:
            size = " + ".join(f"aligned({size})" for _, size in self.slices)
            lines += [f"const at = reserve({size});", "if (at === 0) {", "  return NO_MEMORY;", "}"]
        at = "at"
        for name, size in self.slices:
            lines.append(f"const {name}At = {at};")
            at = f"{name}At + aligned({size})"
        lines += self.puts
        made = f"instance.{function}({', '.join(self.given)})"
        lines += [f"const returned = {made};", *self.takes] if self.takes else []
        lines.append(f"return finished({'returned' if self.takes else made});" if self.slices else f"return {made};")
        body = "".join(f"  {line}\n" for each in lines for line in broken(each))
        return f"\nfunction {self.name}({', '.join(self.parameters)}) {{\n{body}}}\n"


def broken(line):
    """A call with many arguments in several lines."""
    if len(line) <= 116:
        return [line]
    start, arguments = line.split("(", 1)
    return [f"{start}(", *filled(arguments.removesuffix(");"), "  ", width=116).split("\n"), ");"]


def argument(name, is_of_table=False):
    """The name of an argument in JavaScript."""
    return "chunk" if name == "bytes" and not is_of_table else NAMES.get(name, camel(name, False))


def js_call(call):
    function = Function(camel(call.call, False, with_capitals=False))
    for name in call.takes:
        function.number(argument(name))
    if call.entries:
        function.entries(len(structs()[call.entries]["fields"]))
    for name in call.reads:
        function.bytes(argument(name, bool(call.entries)))
    if call.flag:
        function.flag(argument(call.flag))
    if call.given:
        function.numbers(argument(call.given), len(structs()[call.given]["fields"]), call.changes)
    if call.numbers:
        function.numbers("numbers", len(structs()[call.numbers]["fields"]))
    if call.table:
        function.table(len(structs()[call.table]["fields"]))
    if call.writes:
        function.out()
    return function


def js_calls():
    functions = [js_call(call) for call in calls()]
    text = JS_HEAD + "".join(f.text(f"js_{call.call}") for f, call in zip(functions, calls()))
    text += "\n/** The length of a chunk, by which its kind is checked before it is copied. */\n"
    text += "function chunkLength(chunk) {\n  return bytesIn('chunk', chunk);\n}\n"
    names = [*(function.name for function in functions), "chunkLength"]
    return text + "\nexport const CALLS = {\n" + "".join(f"  {name},\n" for name in names) + "};\n"


def files():
    return {"wasm/calls.c": c_calls(), "node/lib/module_calls.js": js_calls()}
