"""The records as C structs, and what the functions of pendratsoa_messages.h know of them. Those are in
messages.h.in, which is C except the words between @; nothing in them depends on the description."""
import pathlib
import textwrap

from . import Refused
from .calls_data import described
from .model import camel, snake
from .proto import earlier, typed
from .typed_model import KINDS, TypedOneOf, enumerations, records

TEMPLATE = pathlib.Path(__file__).with_name("messages.h.in")

# Names that no member can have in C or C++, and are not words of Python, which the model refuses.
WORDS = {
    *("alignas", "alignof", "asm", "auto", "bool", "case", "catch", "char", "const", "constexpr", "decltype"),
    *("default", "delete", "do", "double", "enum", "explicit", "export", "extern", "float", "friend", "goto"),
    *("inline", "int", "long", "mutable", "namespace", "new", "noexcept", "nullptr", "operator", "private"),
    *("protected", "public", "register", "restrict", "short", "signed", "sizeof", "static", "struct", "switch"),
    *("template", "this", "throw", "typedef", "typeid", "typename", "union", "unsigned", "using", "virtual"),
    *("void", "volatile"),
}

TYPES = {
    "u32": "uint32_t",
    "u64": "uint64_t",
    "bool": "bool",
    "enum": "int32_t",
    "text": "struct journal_slice",
    "bytes": "struct journal_slice",
}


def member(name):
    """A field's name, where it is a word of C or C++ with another character."""
    return f"{name}_" if name in WORDS else name


def upper(name):
    """A name of the description as constants have it: a message's without that word, as the calls name its schema."""
    return snake(name.replace("Message", "")).upper()


def schema_of(record):
    return f"JOURNAL_SCHEMA_{upper(record)}"


def comment(text, indent=""):
    lines = textwrap.wrap(text.replace("*/", "* /"), 120 - len(indent) - 6)
    return f"{indent}/* " + f"\n{indent}   ".join(lines) + " */\n"


def by_name():
    return {record.name: record for record in records()}


def has_content(field):
    """Whether there is anything of a field besides that it is there: a record without fields has nothing."""
    return field.record is None or bool(by_name()[field.record].rows)


def element(field):
    return f"struct journal_{field.record}" if field.record else TYPES[field.kind]


def case_name(record, row, name):
    return f"JOURNAL_{upper(record.name)}_{row.name.upper()}_{name.upper()}"


def field_members(field):
    """The members of a field that is in no oneof."""
    if field.shape == "repeated":
        return [f"const {element(field)} *{member(field.name)};", f"size_t {member(field.name)}_count;"]
    held = [f"{element(field)} {member(field.name)};"] if has_content(field) else []
    return [f"bool has_{member(field.name)};", *held] if field.shape == "optional" else held


def oneof_enum(record, row):
    """Which member of a oneof is there."""
    cases = [("absent", 0), *((field.name, field.number) for field in row.members)]
    text = comment(f"Which member of the oneof {row.name} is there.") + f"enum journal_{record.name}_{row.name} {{\n"
    return text + ",\n".join(f"    {case_name(record, row, name)} = {number}" for name, number in cases) + "\n};\n\n"


def oneof_members(record, row):
    """The members of a oneof: which is there, and a struct of those that hold anything. It is not a union, since Rattle
    reads it, which has none."""
    text = f"    enum journal_{record.name}_{row.name} {member(row.name)}_case;\n"
    held = [field for field in row.members if has_content(field)]
    if held:
        text += "    struct {\n"
        for field in held:
            text += comment(field.comment, " " * 8) + f"        {element(field)} {member(field.name)};\n"
        text += f"    }} {member(row.name)};\n"
    return text


def struct(record):
    text = "".join(oneof_enum(record, row) for row in record.rows if isinstance(row, TypedOneOf))
    text += comment(record.comment) + f"struct journal_{record.name} {{\n"
    if not record.rows:
        return text + "    uint8_t nothing;\n};\n"
    for row in record.rows:
        text += comment(row.comment, "    ")
        if isinstance(row, TypedOneOf):
            text += oneof_members(record, row)
        else:
            text += "".join(f"    {line}\n" for line in field_members(row))
    return text + "};\n"


def held_within(record):
    """The records whose structs are in that of a record."""
    held = [field for field in record.fields() if field.record and field.shape != "repeated"]
    return [field.record for field in held if has_content(field)]


def in_order():
    """The records, each after those whose structs are in its own."""
    found, begun = [], []

    def put(name):
        if name in begun:
            raise Refused([f"proto/journal.proto: {name} is within itself and not repeated, which no struct can be"])
        record = by_name()[name]
        if record not in found:
            begun.append(name)
            for other in held_within(record):
                put(other)
            begun.pop()
            found.append(record)

    for record in records():
        put(record.name)
    return found


def below(name):
    """The records that may be within a record, at any level."""
    found, left = set(), [name]
    while left:
        for field in by_name()[left.pop()].fields():
            if field.record and field.record not in found:
                found.add(field.record)
                left.append(field.record)
    return found


def is_borrowed(record):
    """Whether the library takes the struct of a record: one that no chain of records leads back to."""
    return all(name not in below(name) for name in {record.name} | below(record.name))


def is_recursive(record):
    """Whether a record of it may be within one of the same schema, in a record or at any level within it."""
    return any(name in below(name) for name in {record.name} | below(record.name))


def enums():
    text = ""
    for found in enumerations():
        prefix = upper(found.name)
        text += comment(found.comment) + f"enum journal_{found.name} {{\n"
        text += ",\n".join(
            (comment(said, "    ") if said else "")
            + f"    JOURNAL_{prefix}_{name.removeprefix(f'{prefix}_')} = {number}"
            for name, number, said in found.values
        )
        text += "\n};\n\n"
    return text


# How a value is read from an entry, and what its entry says.
READS = {
    "u32": "(uint32_t)field->value",
    "u64": "field->value",
    "bool": "field->value != 0",
    "enum": "(int32_t)(int64_t)field->value",
    "text": "journal_slice_of_(reader, field)",
    "bytes": "journal_slice_of_(reader, field)",
}
WRITES = {"u32": "{place}", "u64": "{place}", "bool": "{place}", "enum": "(uint64_t)(int64_t){place}"}


def indented(lines, depth):
    return [f"{' ' * 4 * depth}{line}" if line else line for line in lines]


def read_value(field, place):
    """The statements that read the value of the entry `field` to a place."""
    if not field.record:
        return [f"{place} = {READS[field.kind]};"]
    if has_content(field):
        return [f"journal_read_{field.record}_(reader, level + 1, &{place});"]
    return [f"journal_read_{field.record}_(reader, level + 1);"]


def read_elements(record, field):
    """The statements that read the elements of a repeated field, whose first entry is `field`."""
    kind, name = element(field), member(field.name)
    is_counted = field.record and is_recursive(by_name()[field.record])
    count = "(size_t)field->length" if is_counted else "journal_elements_(reader, field)"
    taken = f"{kind} *elements = ({kind} *)journal_take_(reader, count, sizeof({kind}));"
    if len(taken) > 108:
        taken = taken.replace(" = ", " =\n                ")
    lines = [f"size_t count = {count};", taken]
    lines += ["", "if (elements == NULL) {", "    break;", "}"]
    if field.record:
        lines += ["memset(elements, 0, count * sizeof *elements);"]
    lines += [f"record->{name} = elements;", f"record->{name}_count = count;"]
    if field.record:
        lines += ["reader->next = field;", "for (size_t i = 0; i < count && reader->next != reader->end; i++) {"]
        lines += ["    reader->next++;", *indented(read_value(field, "elements[i]"), 1), "}"]
    else:
        lines += ["for (size_t i = 0; i < count; i++, field++) {", *indented(read_value(field, "elements[i]"), 1), "}"]
        lines += ["reader->next = field;"]
    return lines


def read_case(record, row, field):
    """The case of a field's number."""
    place = f"record->{member(row.name)}"
    if isinstance(row, TypedOneOf):
        lines = [f"{place}_case = {case_name(record, row, field.name)};"]
        lines += read_value(field, f"{place}.{member(field.name)}")
    elif row.shape == "repeated":
        inner = "\n".join(indented([*read_elements(record, row), "break;"], 3))
        return f"        case {field.number}: {{\n{inner}\n        }}\n"
    else:
        lines = [f"record->has_{member(row.name)} = true;"] if row.shape == "optional" else []
        lines += read_value(field, place)
    inner = "\n".join(indented([*lines, "break;"], 3))
    return f"        case {field.number}:\n{inner}\n"


def read_head(record, end):
    """How the function begins that reads the fields of a record, which are at a level."""
    words = ["struct journal_reader_ *reader", "uint64_t level"]
    words += [f"struct journal_{record.name} *record"] if record.rows else []
    return declared(f"static inline void journal_read_{record.name}_(", words, end)


def reader(record):
    text = read_head(record, ") {")
    if not record.rows:
        text += "    if (journal_next_(reader, level) != NULL) {\n        journal_stop_(reader, JOURNAL_UNKNOWN);\n"
        return text + "    }\n}\n"
    text += "    const struct journal_field *field;\n\n    while ((field = journal_next_(reader, level)) != NULL) {\n"
    text += "        switch (field->number) {\n"
    for row in record.rows:
        for field in row.members if isinstance(row, TypedOneOf) else [row]:
            text += read_case(record, row, field)
    return text + "        default:\n            journal_stop_(reader, JOURNAL_UNKNOWN);\n        }\n    }\n}\n"


def write_value(record, field, place):
    """The statements that append the entry of a value that is at a place, and those within it."""
    number = field.number
    if field.kind in ("text", "bytes"):
        return [f"journal_put_slice_(writer, level, {number}, JOURNAL_{KINDS[field.kind]}, {place});"]
    if not field.record:
        value = WRITES[field.kind].format(place=place)
        return [f"journal_put_(writer, level, {number}, JOURNAL_{KINDS[field.kind]}, {value});"]
    lines = [f"journal_put_(writer, level, {number}, JOURNAL_FIELD_MESSAGE, {schema_of(field.record)});"]
    if not has_content(field):
        return lines
    within = f"journal_put_{field.record}_(writer, level + 1, &{place});"
    if field.record not in below(field.record):
        return [*lines, within]
    # one that is too deep is rejected for that, whatever it holds
    return [*lines, "if (level < JOURNAL_LEVELS_) {", f"    {within}", "}"]


def write_row(record, row):
    place = f"record->{member(row.name)}"
    if isinstance(row, TypedOneOf):
        lines = [f"switch ({place}_case) {{"]
        for field in row.members:
            lines += [f"case {case_name(record, row, field.name)}:"]
            lines += indented(write_value(record, field, f"{place}.{member(field.name)}"), 1) + ["    break;"]
        lines += [f"case {case_name(record, row, 'absent')}:", "    break;", "default:"]
        lines += [f"    journal_put_(writer, level, (uint64_t){place}_case, JOURNAL_NO_FIELD_, 0);", "    break;"]
        return [*lines, "}"]
    if row.shape == "repeated":
        lines = [f"for (size_t i = 0; i < {place}_count; i++) {{"]
        return [*lines, *indented(write_value(record, row, f"{place}[i]"), 1), "}"]
    if row.shape == "optional":
        condition = f"record->has_{member(row.name)}"
    elif row.kind in ("text", "bytes"):
        condition = f"{place}.length > 0"
    else:
        condition = place if row.kind == "bool" else f"{place} != 0"
    return [f"if ({condition}) {{", *indented(write_value(record, row, place), 1), "}"]


def write_head(record, end):
    """How the function begins that appends the entries of a record, at a level."""
    words = ["struct journal_writer_ *writer", "uint64_t level", f"const struct journal_{record.name} *record"]
    return declared(f"static inline void journal_put_{record.name}_(", words, end)


def writer(record):
    lines = [line for row in record.rows for line in write_row(record, row)]
    return write_head(record, ") {") + "\n".join(indented(lines, 1)) + "\n}\n"


def inner_first():
    """The records, each after those that it holds, except one that may hold itself."""
    found = []

    def put(record, above):
        if record.name in above or record in found:
            return
        for field in record.fields():
            if field.record:
                put(by_name()[field.record], {*above, record.name})
        found.append(record)

    for record in records():
        put(record, set())
    return found


def readers():
    parts = [read_head(record, ");") + "\n" for record in inner_first() if record.name in below(record.name)]
    return "".join(parts) + "\n".join(reader(record) for record in inner_first())


def writers():
    held = [record for record in inner_first() if record.rows]
    parts = [write_head(record, ");") + "\n" for record in held if record.name in below(record.name)]
    return "".join(parts) + "\n".join(writer(record) for record in held)


def functions():
    text = ""
    for record in records():
        arguments = [f"struct journal_{record.name} *record", "struct journal_arena *arena"]
        reading = ["const uint8_t *payload", "size_t payload_length", *arguments]
        writing = [f"const {arguments[0]}", arguments[1], "uint8_t *out", "size_t room"]
        schema, has_rows = schema_of(record.name), bool(record.rows)
        text += f"/* Reads the record {record.name} from a payload. */\n"
        text += declared(f"static inline int64_t journal_read_{record.name}(", reading, ") {")
        text += "    struct journal_reader_ reader;\n\n    memset(record, 0, sizeof *record);\n"
        words = ["&reader", schema, str(is_recursive(record)).lower(), "payload", "payload_length", "arena"]
        text += filled("    if (journal_begin_reading_(", words, ")) {")
        text += f"        journal_read_{record.name}_(&reader, 0{', record' if has_rows else ''});\n    }}\n"
        text += "    return journal_end_reading_(&reader, arena, record, sizeof *record);\n}\n\n"
        text += f"/* Writes the canonical payload of the record {record.name}. */\n"
        text += declared(f"static inline int64_t journal_write_{record.name}(", writing, ") {")
        if not is_borrowed(record):
            text += "    struct journal_writer_ writer = journal_writer_of_(arena);\n\n"
        else:
            text += "    struct journal_writer_ writer;\n"
            text += f"    const int64_t length = journal_encode_{record.name}(record, out, room);\n\n"
            text += "    if (length != JOURNAL_MALFORMED) {\n        return length;\n    }\n"
            text += "    /* a table has the field that is rejected, and why */\n"
            text += "    writer = journal_writer_of_(arena);\n"
        text += f"    journal_put_{record.name}_(&writer, 0, record);\n" if has_rows else "    (void)record;\n"
        text += filled("    return journal_end_writing_(", ["&writer", schema, "arena", "out", "room"], ");") + "}\n\n"
    return text


def framers():
    """The functions that write the frames of messages from their structs."""
    coded = {message.name: message for message in typed()}
    before = {last.name: first.before_version for first, last in earlier()}
    return "".join(framer(record, coded[record.name], before.get(record.name))
                   for record in records() if record.name in coded)


def each_message():
    """The words of a macro that has each message, with the name of its type except JOURNAL_TYPE_."""
    return " \\\n".join(f"    each({message.name}, {upper(message.type_name())})" for message in typed()) + "\n"


def framer(record, message, before):
    name, code = record.name, f"JOURNAL_TYPE_{upper(message.type_name())}"
    words = ["uint32_t version", f"const struct journal_{name} *record", "struct journal_arena *arena"]
    text = f"/* Writes the frame of a message from its record {name}. */\n"
    text += declared(f"static inline int64_t journal_frame_{name}(", [*words, "uint8_t *out", "size_t room"], ") {")
    text += "    uint8_t header[8];\n"
    text += f"    int64_t length = journal_header(version, {code}, 0, header, sizeof header);\n\n"
    text += earlier_frame(name, code, before) if before else ""
    text += "    if (length > 0) {\n"
    text += filled(f"        length = journal_write_{name}(",
                   ["record", "arena", "journal_payload_(out, room)", "journal_payload_room_(room)"], ");")
    return text + "    }\n    return journal_framed_(header, length, out, room);\n}\n\n"


def earlier_frame(name, code, before):
    """The branch of a version at which the type has another record: the payload of this one is at the arena's end for
    as long as the frame is made of it."""
    write = filled(f"            length = journal_write_{name}(",
                   ["record", "arena", "arena->memory + arena->left", "taken"], ");")
    frame = filled("                length = journal_frame(",
                   ["version", code, "arena->memory + arena->left", "taken", "out", "room"], ");")
    return (
        f"    if (length > 0 && version < {before}) {{\n"
        f"        length = journal_write_{name}(record, arena, NULL, 0);\n"
        "        if (length == JOURNAL_NO_ROOM) {\n"
        "            /* the payload comes next to its table, and is shorter */\n"
        "            arena->lacking += arena->left + arena->lacking;\n"
        "        } else if (length >= 0 && (uint64_t)length > arena->left) {\n"
        "            length = journal_lacks_(arena, (size_t)length);\n"
        "        } else if (length >= 0) {\n"
        "            const size_t taken = (size_t)length;\n\n"
        "            arena->left -= taken;\n"
        f"{write}"
        f"            if (length >= 0) {{\n{frame}            }}\n"
        "            arena->left += taken;\n"
        "        }\n        return length;\n    }\n"
    )


def encoders():
    """The calls that write the payloads of records, which the library has of those that are not within themselves."""
    return "".join(
        f"/* Writes the payload of the record {record.name}. */\n"
        + declared(
            f"int64_t journal_encode_{record.name}(",
            [f"const struct journal_{record.name} *record", "uint8_t *out", "size_t room"],
            ");",
        )
        for record in records()
        if is_borrowed(record)
    )


def each_record():
    """The words of a macro that has each record, with the name of its schema except JOURNAL_SCHEMA_."""
    return " \\\n".join(f"    each({record.name}, {upper(record.name)})" for record in records()) + "\n"


def declared(start, words, end):
    """A list of words after what begins a line, below each other's first where they take several lines, as the calls'
    header has it, or further to the left where a word is too long for that."""
    text = filled(start, words, end)
    if all(len(line) <= 120 for line in text.split("\n")):
        return text
    return f"{start}\n" + filled("    ", words, end)


def filled(start, words, end):
    lines, line = [], start
    for at, word in enumerate(words):
        said = word + ("," if at < len(words) - 1 else end)
        between = "" if line.endswith("(") or not line.strip() else " "
        if between and len(line) + 1 + len(said) > 120:
            lines.append(line)
            line, between = " " * len(start), ""
        line += between + said
    return "\n".join([*lines, line]) + "\n"


def header():
    repeated = {field.record for record in records() for field in record.fields() if field.shape == "repeated"}
    pointed = [record for record in records() if record.name in repeated]
    words = {
        "LEVELS": str(described()["levels"]),
        "ENUMS": enums().rstrip("\n") + "\n",
        "FORWARD": "".join(f"struct journal_{record.name};\n" for record in pointed),
        "STRUCTS": "\n".join(struct(record) for record in in_order()),
        "UNION": "".join(f"    struct journal_{record.name} {record.name};\n" for record in records()),
        "ELEMENTS": "".join(f"    struct journal_{record.name} {record.name};\n" for record in pointed),
        "ENCODERS": encoders(),
        "READERS": readers(),
        "WRITERS": writers(),
        "EACH_RECORD": each_record(),
        "FUNCTIONS": functions().rstrip("\n") + "\n",
        "EACH_MESSAGE": each_message(),
        "FRAMERS": framers().rstrip("\n") + "\n",
    }
    text = TEMPLATE.read_text()
    for word, said in words.items():
        text = text.replace(f"@{word}@", said)
    return text


# How the tests print a value of a kind.
PRINTS = {
    "u32": "print_number({value})",
    "u64": "print_number({value})",
    "bool": "print_flag({value})",
    "enum": "print_signed({value})",
    "text": "print_text({value})",
    "bytes": "print_bytes({value})",
}


def printed(field, value):
    if field.record:
        inner = f"&{value}" if has_content(field) else "NULL"
        return f"print_{field.record}({inner});"
    return PRINTS[field.kind].format(value=value) + ";"


def says(words, indent):
    return f'{" " * indent}print_words("{words}");\n'


def print_row(record, row):
    target = f"record->{member(row.name)}"
    if isinstance(row, TypedOneOf):
        text = f"    switch ({target}_case) {{\n"
        for field in row.members:
            text += f"    case {case_name(record, row, field.name)}:\n" + says(f"Some({camel(field.name)}(", 8)
            value = f"{target}.{member(field.name)}"
            text += f"        {printed(field, value)}\n" + says("))", 8) + "        break;\n"
        text += f"    case {case_name(record, row, 'absent')}:\n"
        return text + says("None", 8) + "        break;\n    }\n"
    if row.shape == "repeated":
        text = says("[", 4) + f"    for (size_t i = 0; i < {target}_count; i++) {{\n"
        text += '        print_words(i == 0 ? "" : ", ");\n' + " " * 8 + printed(row, f"{target}[i]") + "\n    }\n"
        return text + says("]", 4)
    if row.shape == "optional":
        text = f"    if (record->has_{member(row.name)}) {{\n" + says("Some(", 8)
        text += f"        {printed(row, target)}\n"
        return text + says(")", 8) + "    } else {\n" + says("None", 8) + "    }\n"
    return f"    {printed(row, target)}\n"


def print_function(record, end):
    return declared(f"static void print_{record.name}(", [f"const struct journal_{record.name} *record"], end)


def tests():
    """What the tests have of each record: how it is printed, by the names of its members."""
    text = "/* Each record, printed as the test vectors have it, for test_messages.c. */\n\n"
    text += "".join(print_function(record, ");") for record in records())
    for record in records():
        text += "\n" + print_function(record, ") {")
        if not record.rows:
            text += f'    (void)record;\n    print_words("{record.name}");\n}}\n'
            continue
        for at, row in enumerate(record.rows):
            opened = f"{record.name} {{ " if at == 0 else ", "
            text += f'    print_words("{opened}{row.name}: ");\n' + print_row(record, row)
        text += '    print_words(" }");\n}\n'
    return text


# What the tests know of the members of records, to iterate over those of any.
MEMBERS = """\
/* The members of each record, for tests that iterate over those of any. */

/* How a member is there. */
#define PLAIN 0
#define OPTIONAL 1
#define REPEATED 2
#define MEMBER 3

/* A member: its field number and kind, how it is there, where it is in the struct, where its has_, _count or _case is,
   and the schema of the record in it. */
struct member {
    uint16_t number;
    uint8_t kind;
    uint8_t shape;
    uint16_t offset;
    uint16_t presence;
    uint32_t schema;
};

/* A record: its members, in the order of the description, and the size of its struct. */
struct record {
    uint16_t first;
    uint16_t count;
    uint16_t size;
};

#define AT(record, name) offsetof(struct journal_##record, name)
#define PLAIN_OF(record, name, number, kind) {number, JOURNAL_FIELD_##kind, PLAIN, AT(record, name), 0, 0}
#define OPTIONAL_OF(record, name, number, kind, schema) \\
    {number, JOURNAL_FIELD_##kind, OPTIONAL, AT(record, name), AT(record, has_##name), schema}
#define FLAG_OF(record, name, number, schema) \\
    {number, JOURNAL_FIELD_MESSAGE, OPTIONAL, 0, AT(record, has_##name), schema}
#define REPEATED_OF(record, name, number, kind, schema) \\
    {number, JOURNAL_FIELD_##kind, REPEATED, AT(record, name), AT(record, name##_count), schema}
#define CASE_OF(record, name, number, schema) \\
    {number, JOURNAL_FIELD_MESSAGE, MEMBER, 0, AT(record, name##_case), schema}
#define MEMBER_OF(record, name, member, number, kind, schema) \\
    {number, JOURNAL_FIELD_##kind, MEMBER, AT(record, name.member), AT(record, name##_case), schema}

/* The _case of a oneof is written as four bytes. */
typedef char case_has_four_bytes[
    sizeof(@CASE@) == sizeof(uint32_t) ? 1 : -1];

static const struct member all_members[] = {
@MEMBERS@};

static const struct record all_records[JOURNAL_SCHEMAS] = {
@RECORDS@};
"""


def row_of(record, row, field):
    """What is known of a field: a macro, and the words that it is given."""
    kind = KINDS[field.kind].removeprefix("FIELD_")
    schema = schema_of(field.record) if field.record else 0
    if isinstance(row, TypedOneOf):
        place = [record.name, member(row.name)]
        if has_content(field):
            return "MEMBER_OF", [*place, member(field.name), str(field.number), kind, str(schema)]
        return "CASE_OF", [*place, str(field.number), str(schema)]
    place = [record.name, member(field.name), str(field.number)]
    if field.shape == "plain":
        return "PLAIN_OF", [*place, kind]
    if field.shape == "optional" and not has_content(field):
        return "FLAG_OF", [*place, str(schema)]
    return f"{field.shape.upper()}_OF", [*place, kind, str(schema)]


def rows(record):
    text = ""
    for row in record.rows:
        for field in row.members if isinstance(row, TypedOneOf) else [row]:
            macro, words = row_of(record, row, field)
            text += filled(f"    {macro}(", words, "),")
    return text


def listed():
    first, text = 0, ""
    for record in records():
        count = len(record.fields())
        words = [str(first), str(count), f"sizeof(struct journal_{record.name})"]
        text += f"    {{{', '.join(words)}}},\n"
        first += count
    return text


def members():
    """The members of each record, as the tests know them."""
    oneofs = [(record, row) for record in records() for row in record.rows if isinstance(row, TypedOneOf)]
    words = {
        "CASE": f"enum journal_{oneofs[0][0].name}_{oneofs[0][1].name}",
        "MEMBERS": "".join(map(rows, records())),
        "RECORDS": listed(),
    }
    text = MEMBERS
    for word, said in words.items():
        text = text.replace(f"@{word}@", said)
    return text


def files():
    return {"include/pendratsoa_messages.h": header(), "tests/c/records.h": tests(), "tests/c/members.h": members()}
