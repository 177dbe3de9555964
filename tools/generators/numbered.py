"""The numbers of fields in files that are written by hand: the record Future, which holds itself, the suspension before
version 7 as it is written, their definitions and proofs, and planted bugs that quote generated lines.

All else of these files is written by hand, except the order of Future's fields and the further fields of records that
they make. The numbers are found by the text around them, in which the name of a field in braces is where its number is.
"""
import itertools
import re

from . import ROOT, Refused, laid_out
from . import missing_rt as missing  # noqa: F401
from .proto import OneOf, fields_of, messages
from .records import EMPTY

ABOUT = "The numbers of fields in hand-written files."
SOURCE = "proto/journal.proto"

# The files say themselves what they are.
IS_WHOLE = False

PARTS = "crates/shared_core_parts"
RUNTIME = "crates/shared_core_runtime"

AT_NESTED = ("Future", ["future_part {nested_futures} (Message future)"])
NESTED = ("Future", [*AT_NESTED[1], "(Repeated {nested_futures} (Message future))"])

# By file: the messages whose fields' numbers it has, each with the texts around them. Each text is there.
NUMBERED = {
    f"{PARTS}/src/future.rt": [
        (
            "Future",
            [
                "{waiting_completions} => packed::merge(&mut future.waiting_completions,",
                "{waiting_signals} => packed::merge(&mut future.waiting_signals,",
                "{waiting_named_signals} => repeated::merge(&mut future.waiting_named_signals,",
                "{nested_futures} => extend_futures(",
                "{combinator_type} => plain::merge(",
                "{waiting_completions}, &future.waiting_completions)",
                "{waiting_signals}, &future.waiting_signals)",
                "{waiting_named_signals}, &future.waiting_named_signals)",
                "{combinator_type}, &future.combinator_type)",
                "(Repeated {nested_futures} (Message tables.future))",
                "value_bytes {nested_futures} (Message tables.future)",
                "size.add_sized({nested_futures},",
                "write_length(out, start, {nested_futures},",
            ],
        )
    ],
    f"{PARTS}/proofs/future/+measure_future/Answers.antt": [NESTED],
    f"{PARTS}/proofs/future/+measure_future/Invariants.antt": [AT_NESTED],
    f"{PARTS}/proofs/future/+encode_future/Invariants.antt": [AT_NESTED],
    f"{PARTS}/proofs/future/+encode_future/Answers.antt": [
        (
            "Future",
            [
                "future_part {nested_futures} (Message future)",
                "(Repeated {nested_futures} (Message future))",
                "message_before {nested_futures} future",
            ],
        )
    ],
    f"{RUNTIME}/src/flat_suspension.rt": [
        (
            "SuspensionMessageV6",
            [
                "add_run(&mut runs, {waiting_completions}, &sizes.completions)",
                "add_run(&mut runs, {waiting_signals}, &sizes.signals)",
                "&mut sizes.names, {waiting_named_signals}, &future.waiting_named_signals)",
                "ends.names, {waiting_named_signals}, &future.waiting_named_signals)",
                "write_head(completions, ends.completions, {waiting_completions})",
                "write_head(signals, ends.signals, {waiting_signals})",
            ],
        )
    ],
    f"{RUNTIME}/specs/Flattening.antt": [
        (
            "Future",
            [
                "completions_place = {waiting_completions@}",
                "signals_place = {waiting_signals@}",
                "named_signals_place = {waiting_named_signals@}",
            ],
        )
    ],
    f"{RUNTIME}/specs/AwaitedLists.antt": [
        (
            "SuspensionMessageV6",
            [
                "row_in Completions = Repeated {waiting_completions} U32",
                "row_in Signals = Repeated {waiting_signals} U32",
                "Repeated {waiting_named_signals} Text",
            ],
        )
    ],
    f"{RUNTIME}/proofs/AwaitedLists.antt": [
        (
            "SuspensionMessageV6",
            [
                "each_bytes {waiting_named_signals} Text",
                "each_nil {waiting_named_signals} Text",
                "each_cons {waiting_named_signals} Text",
                "value_bytes {waiting_named_signals} Text",
                "elements_bytes {waiting_named_signals} Text",
                "Repeated {waiting_named_signals} Text",
                "elements_room Completions ms = run_room {waiting_completions} ",
                "elements_room Signals ms = run_room {waiting_signals} ",
                "measured_message {waiting_completions} completions",
                "measured_message {waiting_signals} signals",
                "run_measured {waiting_completions} (awaited_list Completions",
                "run_measured {waiting_signals} (awaited_list Signals",
                "ap length (no_row {waiting_completions} nil (run_shows nil tt) refl), ap length (no_row "
                "{waiting_signals} nil",
            ],
        )
    ],
    f"{RUNTIME}/proofs/flat_suspension/measure_own/Answers.antt": [
        ("SuspensionMessageV6", ["names_fit c.args.future.now {waiting_named_signals} "])
    ],
    f"{RUNTIME}/proofs/flat_suspension/write_lists/Answers.antt": [
        (
            "SuspensionMessageV6",
            [
                "head_room {waiting_completions} (awaited_list Completions",
                "head_room {waiting_signals} (awaited_list Signals",
                "head_written {waiting_completions} (awaited_list Completions",
                "head_written {waiting_signals} (awaited_list Signals",
            ],
        )
    ],
}


# The definition of the order of Future's fields, and what it calls them.
IN_ROWS = f"{PARTS}/specs/Futures.antt"
CALLED = {
    "waiting_completions": "completions",
    "waiting_signals": "signals",
    "waiting_named_signals": "named_signals",
    "nested_futures": "nested",
    "combinator_type": "combinator",
}

# The hand-written code that makes records, and those that may have further fields, which it leaves empty.
CONVERSIONS = f"{PARTS}/src/conversions.rt"
COMPLETED = ("Failure", "FailureMetadata", "Header")

# By planted bug: the message whose generated record it is in, and its texts. After a name `+1` is the next number, `~`
# one whose key has another length, and `@` the index among the message's fields, from 0 on.
PLANTED = {
    f"{PARTS}/mutants/another_number.edit": (
        "Future",
        ["old: write_length(out, start, {nested_futures},", "new: write_length(out, start, {nested_futures+1},"],
    ),
    f"{PARTS}/mutants/arm_missing.edit": ("Value", ["old: {content} => plain::", "new: {content+1} => plain::"]),
    f"{PARTS}/mutants/fields_swapped.edit": (
        "StateEntry",
        [
            "old: out, end, {value}, &self.value)",
            "new: out, end, {value}, &self.key)",
            "old: out, end, {key}, &self.key)",
            "new: out, end, {key}, &self.value)",
        ],
    ),
    f"{PARTS}/mutants/fields_written_in_another_order.edit": (
        "Header", ["out, end, {key}, &self.key)", "out, end, {value}, &self.value)"]
    ),
    f"{PARTS}/mutants/keys_replaced.edit": ("StateKeys", ["{keys} => "]),
    f"{PARTS}/mutants/members_confused.edit": ("NotificationTemplate", ["{completion_id} => *oneof"]),
    f"{PARTS}/mutants/metadata_skipped.edit": ("Failure", ["{metadata} => "]),
    f"{PARTS}/mutants/optional_as_plain.edit": ("WorkflowTarget", ["out, end, {scope}, "]),
    f"{PARTS}/mutants/overwritten_text_not_checked.edit": ("Header", ["old: {key} => ", "new: {key} => "]),
    f"{PARTS}/mutants/value_into_the_key.edit": ("Header", ["old: {value} => ", "new: {value} => "]),
    f"{RUNTIME}/mutants/elements_replaced.edit": ("SuspensionMessageV6", ["{waiting_completions} => "]),
    f"{RUNTIME}/mutants/id_not_written.edit": ("ProposeRunCompletionAckMessage", ["out, end, {completion_id}, "]),
    f"{RUNTIME}/mutants/measured_under_another_number.edit": (
        "ProposeRunCompletionAckMessage", [
            "old:         plain::measure(size, {completion_id},", "new:         plain::measure(size, {completion_id~},"
        ]
    ),
    f"{RUNTIME}/mutants/message_replaced.edit": (
        "SuspensionMessage", ["old: {awaiting_on} => ", "new: {awaiting_on} => "]
    ),
    f"{RUNTIME}/mutants/names_of_another_number.edit": (
        "SuspensionMessageV6", [
            "old: repeated::write(names, ends.names, {waiting_named_signals},",
            "new: repeated::write(names, ends.names, {waiting_named_signals+1},",
        ]
    ),
    f"{RUNTIME}/mutants/oneof_of_another_number.edit": (
        "GetStateEphemeralNotificationMessage", [
            "old: void.write_value(out, end, {void})", "new: void.write_value(out, end, {void+1})"
        ]
    ),
    f"{RUNTIME}/mutants/written_under_another_number.edit": (
        "ProposeRunCompletionAckMessage", [
            "old: plain::write(out, end, {completion_id},", "new: plain::write(out, end, {completion_id+1},"
        ]
    ),
    "crates/shared_core_json/mutants/name_of_another_field.edit": ("StartMessage", ["Name({debug_id}, "]),
}


def written_number(name, how, numbers):
    """The number of a field, the next one, one whose key has another length, or its index."""
    number = numbers[name]
    if how == "@":
        return sorted(numbers.values()).index(number)
    return number + 1 if how == "+1" else (16 if number < 16 else 1) if how == "~" else number


def joined(around, numbers):
    """Texts with the numbers between them."""
    return "".join(text + number for text, number in itertools.zip_longest(around, numbers, fillvalue=""))


def numbers_of(name, described):
    """The numbers of a message's fields."""
    return {field.name: field.number for message in described if message.name == name for field in fields_of(message)}


def with_numbers(path, text, name, patterns, described):
    """A text in which the numbers of a message's fields are those of the description."""
    numbers = numbers_of(name, described)
    for pattern in patterns:
        parts = re.split(r"\{(\w+(?:\+1|[~@])?)\}", pattern)
        # a line may end where the pattern has a blank
        around = [re.escape(part).replace("\\ ", r"\s+") for part in parts[::2]]
        written = []
        for part in parts[1::2]:
            written.append(str(written_number(*re.fullmatch(r"(\w+)(.*)", part).groups(), numbers)))
        groups = "".join(f"({part})" + (r"\d+" if at < len(written) else "") for at, part in enumerate(around))
        text, count = re.subn(rf"(?<!\w){groups}", lambda found, written=written: joined(found.groups(), written), text)
        if not count:
            raise Refused([f"numbered: {path} has no text {pattern}, in which the number is that of {name}"])
    return text


def completed(text):
    """Hand-written code whose initializers of records have the further fields of these, which are empty."""
    known = {message.name: message for message in messages()}

    def with_further(found):
        name, body = found.groups()
        present = re.findall(r"(\w+)(?=[:,]|$)", re.sub(r":[^,]*", ":", body.strip()))
        further = [f"{row.name}: {empty(row)}" for row in known[name].rows if row.name not in present]
        if not further:
            return found[0]
        return f"{name} {{ {', '.join([body.strip().rstrip(','), *further])} }}"

    names = "|".join(COMPLETED)
    return re.sub(rf"(?<![:\w])(?<!struct )(?<!impl )(?<!-> )({names}) \{{([^{{}}]*)\}}", with_further, text)


def empty(row):
    """The empty value of a row, as generated records have it."""
    if isinstance(row, OneOf) or row.presence in ("optional", "message"):
        return "None"
    return "Vec::new(alloc)" if row.presence == "repeated" else EMPTY[row.kind]


def with_rows(text, described):
    """The definition of the order of Future's fields, which joins them from the first one on."""
    numbers = numbers_of("Future", described)
    order = [CALLED[name] for name in sorted(numbers, key=numbers.get)]
    rows = "(join ".join(f"{name} " for name in order) + "last" + ")" * (len(order) - 1)
    text, count = re.subn(r"(?m)^(in_rows join .*=\n    join ).*$", rf"\g<1>{rows}", text)
    if not count:
        raise Refused([f"numbered: {IN_ROWS} has no definition in_rows"])
    return text


def in_order(text, described):
    """The record Future with its fields declared, merged, measured and written in the order of their numbers."""
    numbers = numbers_of("Future", described)

    def number(line):
        return next(numbers[name] for name in re.findall(r"future\.(\w+)", line) if name in numbers)

    def sorted_lines(start, end, lines_of):
        nonlocal text
        head, _, rest = text.partition(start)
        body, _, tail = rest.partition(end)
        text = head + start + lines_of(body.split("\n")) + end + tail

    def forward(lines):
        return "\n".join(sorted(lines, key=number))

    def backward(lines):
        calls = sorted((re.sub(r"^    (let end = )?|;$", "", line) for line in lines), key=number, reverse=True)
        return "\n".join([*(f"    let end = {call};" for call in calls[:-1]), f"    {calls[-1]}"])

    def declared(lines):
        fields = re.findall(r"((?:    ///.*\n)*    pub (\w+): .*\n)", "\n".join([*lines, ""]))
        return "".join(text for text, _ in sorted(fields, key=lambda field: numbers[field[1]]))[:-1]

    sorted_lines("pub struct Future {\n", "\n}", declared)
    sorted_lines("match field.number {\n", "\n        _ => {}", forward)
    sorted_lines("{ FieldsFit (table tables.future) (future_parts future.now) }\n{\n", "\n}", forward)
    sorted_lines("(drop end out.old) }\n{\n", "\n}", backward)
    return text


def paths():
    return [*NUMBERED, IN_ROWS, CONVERSIONS, *PLANTED]


def texts(described):
    """The files with the numbers and the order of a description's messages, before code is laid out."""
    found = {}
    for path, numbered in {**NUMBERED, **{path: [planted] for path, planted in PLANTED.items()}}.items():
        text = (ROOT / path).read_text(encoding="utf-8")
        for name, patterns in numbered:
            text = with_numbers(path, text, name, patterns, described)
        found[path] = in_order(text, described) if path.endswith("future.rt") else text
    found[IN_ROWS] = with_rows((ROOT / IN_ROWS).read_text(encoding="utf-8"), described)
    return found


def files():
    found = texts(messages())
    found[CONVERSIONS] = completed((ROOT / CONVERSIONS).read_text(encoding="utf-8"))
    return {**found, **laid_out({path: text for path, text in found.items() if path.endswith(".rt")})}
