"""What the library has a form for: the kinds of fields, what prints them, and the names that code cannot have."""
import keyword
import re

from . import ROOT

# The kinds that fields have, by what the language calls them. Enums and messages are further ones.
SCALARS = {"uint32": "u32", "uint64": "u64", "bool": "bool", "string": "text", "bytes": "bytes"}

# Kinds of which the library has no lists.
NOT_REPEATED = {"u64": "uint64", "bool": "bool", "enum": "an enum"}

# The types of values in Rattle, by kind.
TYPES = {"u32": "u32", "u64": "u64", "bool": "bool", "enum": "i32", "text": "String", "bytes": "Bytes"}

# The functions of `difference` that write a field in which two commands differ, by its presence and its kind.
WRITERS = {
    ("plain", "u32"): "write_number",
    ("plain", "text"): "write_text",
    ("plain", "bytes"): "write_bytes",
    ("optional", "text"): "write_optional_text",
    ("message", "message"): "write_message",
    ("optional", "message"): "write_message",
}

# Those of `values`, by the presence, which take any kind but messages.
ANY_KIND = {"plain": "write_value", "optional": "write_optional", "repeated": "write_list"}

# The messages of which lists are printed, each with the function of `difference` that writes one.
PRINTED_LISTS = {"Header": "write_headers"}

# Words that no field of a struct and no module can be named by, in Rattle or in a clause.
RESERVED = set(
    "as break const continue crate dyn else enum extern false fn for if impl in let loop match mod move mut pub ref "
    "return self static struct super trait true type unsafe use where while async await abstract become box do final "
    "macro override priv try typeof unsized virtual yield ghost requires ensures data record deriving module package "
    "open unfoldable abbrev axiom unfold unfolding ruleset mutual infix infixl infixr elim coe fcoe tcoe hcom "
    "com gen".split()
)

# Names that no field and no oneof can have, since a language has another use for them: words of Python, and what the
# records of a language have besides their fields.
TAKEN = {
    *keyword.kwlist,
    *("encode", "decode", "frame"),
    *("schema", "marshal_binary", "unmarshal_binary", "read", "write"),
    *("class", "hash", "method", "methods", "send", "dup", "clone", "freeze", "inspect", "object_id", "with"),
    *("to_h", "to_s"),
    *("self", "super", "crate"),
}

# What a value of an enum, a constant of a class in some languages, cannot be called.
TAKEN_VALUES = RESERVED | {*keyword.kwlist, "Self", "mro"}

# Names of types that generated code uses, so that no message and no enum of a oneof can have them. For a oneof `result`
# is handled.
TYPE_NAMES = set(
    "Self String Vec Option Some None Result Ok Err Box Bytes BytesMut Size Global Occurrence Record WireRecord "
    "WireError OneOf "
    "FieldKind MessageType MessageHeader RestateMessage RestateEncodableMessage Version EncodingError Formatter "
    "CommandMessageHeaderDiff CommandMessageHeaderEq NamedCommandMessage DifferenceForm PrintedMessage "
    "PrintedOneOf PrintedValue".split()
)

# Names of types of the packages, which no message and no enum can have: there are records next to these.
PACKAGE_TYPES = set(
    "Any AnyMessage AnyTyped AppendFrame ArgumentError Array BytesLike Call Canonical ChangedField Class "
    "ClassVar CompareJournals CompareOptions Compiled Cow Data Decoder Difference Earlier Enumerable Error "
    "Exception Fiddle FieldError FieldReason Fields File FirstVersion Frame FrameOptions FromJSON Frozen "
    "FrozenStruct Hash HeaderEq IdKind Ignored Incomplete IncompleteError Init Integer IsWellFormed Item "
    "JournalError JsonError JsonObject JsonReason JsonValue Kernel Kinds LastVersion Library LibraryVersion "
    "Listed Literal Malformed Member Merge Message MessageError MessageFromJSON MessageName MessageRecord "
    "MessageTooLong MessageTooLongError Mismatch Module Named NamedCall NamedType NewDecoder NewMessage "
    "NewMessageOf NewNumbering NewReplay NoId NoResult NoRoom NotCanonical Notification NotificationId "
    "NotificationResult Numbered Numbering NumberingError NumberingOptions NumberingReason Object OfMessage "
    "OfPayload OpenEnum Optional OutOfMemory Pending Process ReadNotification Reader Replay ReplayOptions "
    "ResultKind Row Schema SchemaNamed Shown Skipped SourceOptions Stream StreamOptions Struct Symbol Table "
    "ToJSON TooLong Trapped Tuple TypeCode TypeError TypeName Union Unknown UnknownCode Verdict VerdictKind "
    "Writer".split()
)

# What functions of generated code call their own values, so that a member of a oneof is bound by another name there.
LOCALS = {"oneof", "field", "size", "out", "end", "f"}

# Names that the table of schemas has for itself.
TABLE_NAMES = {"schemas", "schema_count", "table"}

# The messages whose records are hand-written, since they hold themselves, and the one whose rows notifications have.
HAND_WRITTEN = ("Future",)
TEMPLATE = "NotificationTemplate"

# The rows of messages that hand-written code takes apart, or makes only of these: they have no further ones. The
# initializers of other records are completed by `numbered`.
ROWS = {"Value": {"content"}, TEMPLATE: {"id", "result"}}

# The crate of the messages that are in others, with the hand-written records.
PARTS_CRATE = "shared_core_parts"

# Modules that are written by hand, those that other crates see and those that they do not.
BY_HAND = {
    PARTS_CRATE: ["conversions", "laws", "notification", "texts"],
    "shared_core_runtime": ["flat_suspension"],
}
INNER = {PARTS_CRATE: ["escape"]}

# The versions before which a type may have another message: all but the first that is supported.
LATER_VERSIONS = range(6, 10)


def writer(row):
    """The module and the function that write a field in which two commands differ, or None."""
    if row.presence == "repeated" and row.message in PRINTED_LISTS:
        return "difference", PRINTED_LISTS[row.message]
    if (row.presence, row.kind) in WRITERS:
        return "difference", WRITERS[row.presence, row.kind]
    return ("values", ANY_KIND[row.presence]) if row.kind != "message" else None


def bound(member):
    """The name by which generated code binds what a member of a oneof holds."""
    return f"held_{member.name}" if member.name in LOCALS else member.name


def printed_messages():
    """The messages of which a difference prints the text."""
    source = (ROOT / "crates/shared_core_compare/src/printed.rt").read_text(encoding="utf-8")
    return set(re.findall(r"^impl PrintedMessage for (\w+) \{", source, re.M))
