"""How a Go record is given to the library: its fields are parameters of a function in C, which makes the struct of
them that the library takes. Go gives C no memory in which there are pointers of Go, so no struct can be made in Go, but
each text and all bytes may be parameters themselves. Of lists, whose length nothing limits, the texts and bytes are
copied, one after the other; so a record with a list of anything else but numbers is given as a table of its fields.
"""
from . import Refused
from .calls_data import camel
from .typed_c import by_name, declared, element, has_content, is_borrowed, member
from .typed_model import TypedOneOf, records

# The kinds of parameters of C that are not slices, and how Go has them.
NUMBERS = {"u32": "uint32_t", "u64": "uint64_t", "bool": "bool", "enum": "int32_t"}
ZEROS = {"u32": "uint32", "u64": "uint64", "bool": "bool", "text": "string", "bytes": "[]byte"}

# What the functions here have besides the fields, in C and in Go.
TAKEN_C = {
    *("record", "few", "slices", "next", "length", "lengths", "count", "bytes"),
    *("out", "room", "header", "version", "code"),
}
TAKEN_GO = {
    *("break", "case", "chan", "const", "continue", "default", "defer", "else", "fallthrough", "for", "func", "go"),
    *("goto", "if", "import", "interface", "map", "package", "range", "return", "select", "struct", "switch", "type"),
    *("var", "r", "dst", "to", "out", "lists", "least", "beside", "extended", "length", "member", "element", "i"),
    *("len", "new", "nil", "string", "byte", "int64", "uint32", "uint64", "bool", "place", "pointer"),
}

# What copies an element of a list.
COPIES = {"text": "text", "bytes": "data"}

# How many bytes a value takes after its key, besides its texts and bytes: a guess, of few texts of 128 bytes and more.
VALUES = {"u32": 3, "u64": 10, "bool": 1, "enum": 2, "text": 1, "bytes": 1, "message": 1}


def beside(field):
    """How many bytes a field takes with a value that is there, besides its texts and bytes."""
    return ((field.number << 3).bit_length() + 6) // 7 + VALUES[field.kind]


def slices_of(field):
    """How many slices an element of a list is, or None where it is anything else."""
    if field.kind in ("text", "bytes"):
        return 1
    if not field.record:
        return None
    rows = by_name()[field.record].rows
    is_plain = all(not isinstance(row, TypedOneOf) and row.shape == "plain" for row in rows)
    return len(rows) if rows and is_plain and all(row.kind in ("text", "bytes") for row in rows) else None


def is_passed(record):
    """Whether the fields of a record can be parameters."""
    return is_borrowed(record) and all(
        (field.kind == "u32" or slices_of(field) is not None)
        if field.shape == "repeated"
        else field.record is None or is_passed(by_name()[field.record])
        for field in record.fields()
    )


class Passed:
    """A record that is passed: the parameters and the statements of the function in C, and in Go the statements before
    the call, and what is passed."""

    def __init__(self, record, go_names):
        self.record = record
        self.go_names = go_names
        self.names = set()
        self.parameters = []
        self.made = []
        self.before = []
        self.given = []
        # the texts and bytes that are in no list
        self.slices = []
        # the lists, each with how many slices an element is and what it takes in addition to these, and what copies the
        # slices
        self.lists = []
        self.copied = []
        self.beside = self.rows(record, "r", "record", ())

    def name_in_go(self, path):
        name = camel("_".join(path), False)
        return f"{name}OfRecord" if name in TAKEN_GO else name

    def parameter(self, kind, path, last=""):
        name = "_".join(path) + last
        name = f"{name}_of_record" if name in TAKEN_C or member(name) != name else name
        if name in self.names:
            raise Refused([f"proto/journal.proto: {self.record.name}: two fields within it are {name} in Go's call"])
        self.names.add(name)
        self.parameters.append(f"{kind}{'' if kind.endswith('*') else ' '}{name}")
        return name

    def number(self, kind, place, path, value):
        """Passes a number of a type of C."""
        name = self.parameter(kind, path)
        self.made.append(f"{place} = {name};")
        self.given.append(f"C.{kind}({value})")

    def value(self, field, place, path, value):
        """Passes what is not a record: the value of an expression of Go whose address can be taken."""
        if field.kind not in ("text", "bytes"):
            self.number(NUMBERS[field.kind], place, path, value)
            return
        name = self.parameter("const uint8_t *", path)
        length = self.parameter("size_t", path, "_length")
        self.made.append(declared(f"    {place} = slice_of(", [name, length], ");").strip())
        self.given += [f"pointer({value})" if field.kind == "bytes" else f"pointerToText(&{value})"]
        self.given += [f"C.size_t(len({value}))"]
        self.slices.append(value)

    def content(self, field, place, path, value):
        """Passes a value, or a record to which it is a pointer; how much it takes besides its texts and bytes."""
        if field.record:
            return beside(field) + self.rows(by_name()[field.record], value, place, path)
        self.value(field, place, path, value)
        return beside(field)

    def rows(self, record, value, place, path):
        room = 0
        for row in record.rows:
            at, below = f"{value}.{camel(row.name, True)}", (*path, row.name)
            where = f"{place}.{member(row.name)}"
            if isinstance(row, TypedOneOf):
                room += self.oneof(record, row, at, where, path)
            elif row.shape == "repeated":
                room += self.repeated(row, at, where, below)
            elif row.shape == "optional":
                room += self.optional(row, at, f"{place}.has_{member(row.name)}", where, below)
            else:
                room += self.content(row, where, below, at)
        return room

    def optional(self, field, at, has, place, path):
        self.number("bool", has, ("has", *path), f"{at} != nil")
        if not has_content(field):
            return beside(field)
        name = self.name_in_go(path)
        if field.record:
            self.before += [f"{name} := {at}", f"if {name} == nil {{"]
            self.before += [f"\t{name} = new({self.go_names.name_of(field.record)})", "}"]
        else:
            self.before += [f"var {name} {field.enum or ZEROS[field.kind]}", f"if {at} != nil {{"]
            self.before += [f"\t{name} = *{at}", "}"]
        return self.content(field, place, path, name)

    def oneof(self, record, row, at, place, above):
        """Passes a oneof: which member is there, and all of them. No other field has their names."""
        path = (*above, row.name)
        case = self.name_in_go((*path, "case"))
        kind = f"enum journal_{record.name}_{row.name}"
        name = self.parameter("uint32_t", path, "_case")
        self.made.append(f"{place}_case = ({kind}){name};")
        self.given.append(case)
        self.before.append(f"var {case} C.uint32_t")
        held = [field for field in row.members if has_content(field)]
        for field in held:
            local = self.name_in_go((*above, field.name))
            if field.record:
                self.before.append(f"{local} := new({self.go_names.name_of(field.record)})")
            else:
                self.before.append(f"var {local} {field.enum or ZEROS[field.kind]}")
        self.before.append(f"switch {'member := ' if held else ''}{at}.(type) {{")
        for field in row.members:
            own = self.go_names.member_name(record, row, field)
            self.before += [f"case {'*' if field.record else ''}{own}:", f"\t{case} = {field.number}"]
            if field not in held:
                continue
            local = self.name_in_go((*above, field.name))
            if not field.record:
                self.before.append(f"\t{local} = {field.enum or ZEROS[field.kind]}(member)")
                continue
            inner = "member"
            if not self.go_names.is_shared(row, field):
                inner = f"(*{self.go_names.name_of(field.record)})(member)"
            # a pointer that is nil is an empty record, as it is where a field holds it
            self.before += ["\tif member != nil {", f"\t\t{local} = {inner}", "\t}"]
        self.before.append("}")
        room = max(map(beside, row.members))
        for field in held:
            inner = (*above, field.name)
            room = max(room, self.content(field, f"{place}.{member(field.name)}", inner, self.name_in_go(inner)))
        return room

    def repeated(self, field, at, place, path):
        if field.kind == "u32":
            name = self.parameter("const uint32_t *", path)
            count = self.parameter("size_t", path, "_count")
            self.made += [f"{place} = {name};", f"{place}_count = {count};"]
            self.given += [f"pointerToNumbers({at})", f"C.size_t(len({at}))"]
            self.lists.append((at, 0, 5))
            return beside(field) + 2
        count = self.parameter("size_t", path, "_count")
        cast = f"(const {element(field)} *)" if field.record else ""
        each = slices_of(field)
        self.made += [f"{place} = {cast}next;", f"{place}_count = {count};"]
        self.made.append(f"next += {count};" if each == 1 else f"next += {each} * {count};")
        self.given.append(f"C.size_t(len({at}))")
        self.copied.append(f"for i := range {at} {{")
        inner = [(field.kind, f"{at}[i]")]
        if field.record:
            self.copied.append(f"\telement := &{at}[i]")
            inner = [(row.kind, f"element.{camel(row.name, True)}") for row in by_name()[field.record].rows]
        elements = sum(map(beside, by_name()[field.record].rows)) if field.record else 0
        self.lists.append((at, each, beside(field) + elements))
        self.copied += [f"\tlists.{COPIES[kind]}({value})" for kind, value in inner]
        self.copied.append("}")
        return 0

    def has_texts(self):
        """Whether there is a list of texts or bytes."""
        return bool(self.copied)

    def function(self):
        """The function in C."""
        name = self.record.name
        parameters = list(self.parameters)
        if self.has_texts():
            parameters += ["const size_t *lengths", "size_t count", "const uint8_t *bytes"]
        parameters += ["size_t header", "uint32_t version", "uint16_t code", "uint8_t *out", "size_t room"]
        text = declared(f"static PASSED int64_t encode_{name}(", parameters, ") {")
        text += f"    struct journal_{name} record;\n"
        if self.has_texts():
            text += "    struct journal_slice few[FEW_SLICES];\n"
            text += "    struct journal_slice *slices = slices_of(few, lengths, count, bytes);\n"
            text += "    const struct journal_slice *next = slices;\n"
        text += "    int64_t length;\n\n"
        if self.has_texts():
            text += "    if (slices == NULL) {\n        return JOURNAL_OUT_OF_MEMORY;\n    }\n"
        text += "".join(f"    {line}\n" for line in self.made or ["record.nothing = 0;"])
        call = f"    length = journal_encode_{name}(&record, out + header, room - header);\n"
        text += call if len(call) <= 121 else call.replace("= ", "=\n        ", 1)
        if self.has_texts():
            text += "    give_back(few, slices);\n"
        return text + "    return framed(length, header, version, code, out, room);\n}\n"


def passed(go_names):
    return [Passed(record, go_names) for record in records() if is_passed(record)]
