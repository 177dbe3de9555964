"""The lines that are too long to write by hand, conformance/levels.txt and long.txt.

What a payload means follows from how it is put together here, by the names of fields; no reader of payloads takes part.
"""
import textwrap

from . import missing  # noqa: F401
from .payloads import code, lengthy, record, unknown, varint
from .payloads import payload as payload_of

ABOUT = "Test vectors that are long."
SOURCE = "tools/generators/long_vectors.py"

MALFORMED = "malformed"


# A number that neither futures nor suspensions have.
UNKNOWN = unknown(9, "Future", "SuspensionMessage")


def written(result):
    return (result.hex() or "-") if isinstance(result, bytes) else result


def line(*words, result):
    case = " ".join(word.hex() or "-" if isinstance(word, bytes) else word for word in words)
    return f"{case} = {written(result)}\n"


def payload(schema, content, result):
    return line("payload", schema, content, result=result)


def header(type_name, length, flag=0):
    return code(type_name).to_bytes(2, "big") + bytes([flag, 0]) + length.to_bytes(4, "big")


def future(**fields):
    return payload_of("Future", **fields)


def chain(futures, innermost=b"", outer=lambda number: {}):
    """A future that is the first of a chain, each nested in the one before. Each but the innermost has the fields that
    `outer` gives for its number, from 1."""
    content = innermost
    for number in range(futures - 1, 0, -1):
        content = future(nested_futures=[content], **outer(number))
    return content


def suspension(awaited):
    return payload_of("SuspensionMessage", awaiting_on=awaited)


def awaiting(awaited):
    return payload_of("AwaitingOnMessage", awaiting_on=awaited)


def completions(ids):
    """The three lists of a suspension before version 7; one has elements."""
    return payload_of("SuspensionMessageV6", waiting_completions=ids)


def begin(number=UNKNOWN):
    return varint(8 * number + 3)


def end(number=UNKNOWN):
    return varint(8 * number + 4)


def groups(count, content=b"", number=UNKNOWN):
    """Groups in one another."""
    return begin(number) * count + content + end(number) * count


def chains_of_futures():
    yield (
        "# A suspension's future is on level 1, so a chain of 100 futures reaches level 100, the last. One "
        "more is malformed."
    )
    for futures in (1, 2, 99, 100):
        whole = suspension(chain(futures))
        yield payload("SuspensionMessage", whole, whole)
    yield payload("SuspensionMessage", suspension(chain(101)), MALFORMED)
    yield payload("SuspensionMessage", suspension(chain(150)), MALFORMED)

    yield "# A future that is decoded by itself is on level 0, and the future in a suspension on level 1."
    yield payload("Future", chain(101), chain(101))
    yield payload("Future", chain(102), MALFORMED)
    yield payload("AwaitingOnMessage", awaiting(chain(100)), awaiting(chain(100)))
    yield payload("AwaitingOnMessage", awaiting(chain(101)), MALFORMED)

    yield "# Numbers, texts and empty messages of fields are accepted on the last level as on any other."
    innermost = future(
        waiting_completions=[1, 2], waiting_signals=[17], waiting_named_signals=["a"], combinator_type=-1
    )
    empty = future(nested_futures=[b""])
    yield payload("SuspensionMessage", suspension(chain(100, innermost)), suspension(chain(100, innermost)))
    yield payload("SuspensionMessage", suspension(chain(100, empty)), MALFORMED)
    yield payload(
        "SuspensionMessage", suspension(chain(99, empty * 2)), suspension(chain(99, empty * 2))
    )


def groups_of_an_unknown_field():
    yield "# Nested groups of a number that the schema does not have: the content of the hundredth is on level 100."
    for schema in ("EndMessage", "SuspensionMessage"):
        for count in (1, 99, 100):
            yield payload(schema, groups(count), b"")
        yield payload(schema, groups(101), MALFORMED)

    yield "# A group without its end, and one with an end too many."
    yield payload("EndMessage", groups(100)[:-1], MALFORMED)
    yield payload("EndMessage", groups(100) + end(), MALFORMED)

    yield "# A group of another number within the groups."
    yield payload("EndMessage", groups(99, b"\x0b\x0c"), b"")
    yield payload("EndMessage", groups(100, b"\x0b\x0c"), MALFORMED)
    yield payload("EndMessage", groups(99, b"\x0b\x0c\x0b\x0c"), b"")
    yield payload("EndMessage", groups(50, groups(50, number=536_870_911)), b"")
    yield payload("EndMessage", groups(50, groups(51, number=536_870_911)), MALFORMED)


def groups_below_futures():
    yield "# Levels of futures and of groups add up."
    yield payload("SuspensionMessage", suspension(chain(99, groups(1))), suspension(chain(99)))
    yield payload("SuspensionMessage", suspension(chain(99, groups(2))), MALFORMED)
    yield payload("SuspensionMessage", suspension(chain(100, groups(1))), MALFORMED)
    yield payload("SuspensionMessage", suspension(chain(50, groups(50))), suspension(chain(50)))
    yield payload("SuspensionMessage", suspension(chain(50, groups(51))), MALFORMED)

    yield (
        "# Skipped records on the last level: a number, eight bytes, four bytes and bytes have no further level. "
        "prost rejects each of these."
    )
    for record in ("1000", "110102030405060708", "1501020304", "120161"):
        skipped = bytes.fromhex(record)
        yield payload("EndMessage", groups(100, skipped), b"")
    yield payload(
        "SuspensionMessage", suspension(chain(100, varint(8 * unknown(15, "Future")) + b"\x01")), suspension(chain(100))
    )
    yield payload("Future", chain(101, lengthy(unknown(7, "Future"), b"\x01\x01")), chain(101))

    yield "# One level above, all readers accept them."
    for record in ("1000", "110102030405060708", "1501020304", "120161"):
        yield payload("EndMessage", groups(99, bytes.fromhex(record)), b"")


def far_below_the_last_level():
    yield (
        "# Far deeper than the last level: ten thousand groups that are begun, a thousand that are also ended, "
        "and a thousand futures."
    )
    yield payload("EndMessage", groups(10_000)[:10_000], MALFORMED)
    yield payload("EndMessage", groups(1_000), MALFORMED)
    yield payload("SuspensionMessage", suspension(chain(99, groups(1_000))), MALFORMED)
    yield payload("SuspensionMessage", suspension(chain(1_000)), MALFORMED)
    yield payload("SuspensionMessage", suspension(chain(1_000, b"\xff")), MALFORMED)


def merged_chains():
    yield "# Merging does not add levels: each payload counts its own."
    whole = suspension(chain(100))
    empty, nested = suspension(b""), future(nested_futures=[b""])
    yield line("merge", "SuspensionMessage", whole, empty, result=whole)
    yield line("merge", "SuspensionMessage", whole, whole, result=suspension(chain(100) * 2))
    yield line("merge", "Future", chain(101), nested, result=chain(101) + nested)
    yield line("merge", "SuspensionMessage", suspension(chain(101)), empty, result=MALFORMED)
    yield line("merge", "SuspensionMessage", empty, suspension(chain(101)), result=MALFORMED)


def frames_of_chains():
    yield (
        "# A chain of 100 futures, each with the completion of its number: a list before version 7, and from then "
        "on a chain."
    )
    whole = suspension(chain(100, future(waiting_completions=[100]), lambda number: {"waiting_completions": [number]}))
    lists = completions(range(1, 101))
    for version in (5, 6):
        yield line("frame", "Suspension", str(version), whole, result=header("Suspension", len(lists)) + lists)
    for version in (7, 8):
        yield line("frame", "Suspension", str(version), whole, result=header("Suspension", len(whole)) + whole)

    yield "# There is no frame of 101 futures, since they are no payload."
    whole = suspension(chain(101, future(waiting_completions=[1]), lambda number: {"waiting_completions": [1]}))
    for version in (5, 6, 7, 8):
        yield line("frame", "Suspension", str(version), whole, result=MALFORMED)

    yield (
        "# A value of 101 futures, which no payload means, is a list before version 7: this is the payload of its "
        "frame, and the frame."
    )
    lists = completions([1] * 101)
    yield payload("SuspensionMessageV6", lists, lists)
    yield line("stream", "6", header("Suspension", len(lists)) + lists, result="Suspension 103, rest 0")
    lists = completions(range(1, 102))
    yield payload("SuspensionMessageV6", lists, lists)


def pattern(length):
    """Bytes of which each shows its place."""
    return bytes((place % 251) for place in range(length))


def letters(length):
    return bytes(ord("a") + place % 26 for place in range(length))


def lengths():
    yield "# Values around the lengths at which a length has another byte."
    for length in (127, 128, 129, 16_383, 16_384):
        value = payload_of("Value", content=pattern(length))
        yield payload("Value", value, value)

    yield (
        "# Texts of more than a thousand bytes, with letters of one byte and of several; one that ends in the "
        "middle of a letter."
    )
    text = ("a\u00e9\u4e2d\U0001f980" * 150).encode()
    for content in (text, text[:-1], letters(2_000)):
        named = payload_of("ClearAllStateCommandMessage", name=content)
        yield payload("ClearAllStateCommandMessage", named, MALFORMED if content == text[:-1] else named)

    yield "# Lists of a thousand elements: numbers in one record, each in a record of its own, and texts."
    run = completions(range(1_000))
    alone = b"".join(record("SuspensionMessageV6", "waiting_completions", number) for number in range(1_000))
    yield payload("SuspensionMessageV6", run, run)
    yield payload("SuspensionMessageV6", alone, run)
    texts = payload_of("SuspensionMessageV6", waiting_named_signals=[str(number) for number in range(1_000)])
    yield payload("SuspensionMessageV6", texts, texts)

    yield "# A thousand records of a plain field, of which the last counts; and a thousand of a message field."
    first, last = (payload_of("ProposeRunCompletionAckMessage", completion_id=number) for number in (1, 2))
    yield payload("ProposeRunCompletionAckMessage", first * 1_000 + last, last)
    empty, held = (payload_of("InputCommandMessage", value=value) for value in (b"", payload_of("Value", content=b"x")))
    yield payload("InputCommandMessage", empty * 999 + held, held)
    single = suspension(record("Future", "waiting_completions", 7))
    yield payload("SuspensionMessage", single * 300, suspension(future(waiting_completions=[7] * 300)))

    yield "# A payload of more than 65,535 bytes decoded and encoded, and its frame in chunks."
    key = payload_of("GetLazyStateCommandMessage", key=pattern(65_536))
    frame = header("GetLazyStateCommand", len(key)) + key
    yield line("frame", "GetLazyStateCommand", "8", key, result=frame)
    yield line(
        "stream", "8", frame[:5], frame[5:20_000], frame[20_000:], result=f"GetLazyStateCommand {len(key)}, rest 0"
    )


def heading(words):
    """A heading in lines of at most 120 characters."""
    return textwrap.fill(words, 120, initial_indent="# ", subsequent_indent="# ", break_on_hyphens=False)


def text(title, *makers):
    parts = [f"{heading(title)}\n"]
    for make in makers:
        for part in make():
            parts.append(f"\n{heading(part[2:])}\n" if part.startswith("# ") else part)
    return "".join(parts)


def files():
    return {
        "conformance/levels.txt": text(
            "Levels: the records of a payload are on level 0, those of a message or a group one level deeper, and "
            "level 100 is the last.",
            chains_of_futures,
            groups_of_an_unknown_field,
            groups_below_futures,
            far_below_the_last_level,
            merged_chains,
            frames_of_chains,
        ),
        "conformance/long.txt": text("Long values, and many of them.", lengths),
    }
