"""How a field of one kind reads the bytes of another one that are written in the same form."""
import dataclasses

from .report import LOST, OTHERWISE

# The kinds by how they are written: those of one form are read as each other.
WIRE = {
    **dict.fromkeys(("uint32", "uint64", "int32", "int64", "bool", "enum"), "a number"),
    **dict.fromkeys(("string", "bytes"), "bytes"),
}
SIGNED = ("int32", "int64")
WIDE = ("uint64", "int64")


@dataclasses.dataclass
class Reading:
    """What becomes of values that are read as another kind, if anything does, and the section that says so."""

    said: str
    section: str = OTHERWISE


def reading(field, other, ours, theirs):
    """How our field reads the bytes of theirs, or None if it does not."""
    if (field.label == "repeated") != (other.label == "repeated"):
        return None
    if (field.kind, other.kind) == ("message", "message"):
        return of_messages(ours[field.type_name], theirs.get(other.type_name))
    form = WIRE.get(field.kind)
    if form is None or form != WIRE.get(other.kind):
        return None
    return of_bytes(field, other) if form == "bytes" else of_numbers(field, other)


def of_messages(ours, theirs):
    """Messages are read as each other if one of them has no field."""
    if theirs is None or ours.fields and theirs.fields:
        return None
    return Reading("what it holds is skipped", LOST) if theirs.fields else Reading("it is empty")


def of_bytes(field, other):
    if (field.kind, other.kind) == ("string", "bytes"):
        return Reading("a message in which it is not UTF-8 is malformed as a whole", LOST)
    return Reading("the bytes are the same") if field.kind != other.kind else of_presence(field, "an empty one")


def of_presence(field, default):
    """What becomes of an absent value, where only one of both sides tells it from its default."""
    return Reading(f"{default} is absent here" if field.label == "optional" else f"an absent one is read as {default}")


def of_numbers(field, other):
    """Of a number the low bits are kept."""
    if field.kind == other.kind:
        return of_presence(field, "0")
    if field.kind == "bool":
        return Reading("any number but 0 is true", LOST) if other.kind != "bool" else Reading("")
    if other.kind in WIDE and field.kind not in WIDE:
        return Reading("of a number of more than 32 bits the low 32 bits are read", LOST)
    if other.kind in SIGNED and field.kind not in ("enum", *SIGNED):
        return Reading(f"a negative number is read as one that is 2^{64 if field.kind in WIDE else 32} greater")
    return Reading("the numbers are the same")
