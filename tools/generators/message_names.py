"""The names of the protocol's messages and the codes of their types, in the order of the schemas of shared_core_codec,
for the table that `journal schema` prints, and for those that read payloads by a descriptor set: those that contracts
cite, and those of the program, which are proved to be the same."""
from . import laid_out
from . import missing_rt as missing  # noqa: F401
from .proto import schemas

ABOUT = "The names and codes of the protocol's messages, in the order of the table."
SOURCE = "proto/journal.proto"

NAMES = """\
//! The names of the protocol's messages and the codes of their types, in the order of the table of schemas.

ghost use Rattle.std.specs.Prelude.{◌≡◌};
ghost use Rattle.schema_lines.specs.MessageNames.{message_codes, message_names, texts};

/// How many messages there are.
"""

FUNCTIONS = """
/// The names of the protocol's messages, in the order of the table of schemas.
pub(crate) fn message_names() -> &'static [&'static str]
    ensures { texts result.now ≡ message_names }
{
    &MESSAGE_NAMES
}

/// The code of the type of each schema, if it is the message of a type.
pub(crate) fn message_codes() -> &'static [Option<u32>]
    ensures { result.now ≡ message_codes }
{
    &MESSAGE_CODES
}
"""

SPECS = """\
-- The names of the protocol's messages and the codes of their types.
use Rattle.std.specs.Prelude.{ℕ, List, [], ◌∷◌, map, codes, Option, Some, None}
use Rattle.std.specs.Borrow.{Bor}

-- What texts of the program are.
abbrev pub texts : List (Bor (List ℕ)) → List (List ℕ)
texts names = map (λ name. name.now) names

-- The name of the message of each schema, in the order of the table.
unfoldable pub message_names : List (List ℕ)
"""


def listed(name, elements):
    """The definition of a list of contracts, whose elements stand one per line."""
    return f"{name} =\n    " + "\n    ∷ ".join(elements) + "\n    ∷ []\n"


def texts():
    """The tables, not yet laid out."""
    names = [message.name for message in schemas()]
    codes = [f"Some(0x{message.code:04X})" if message.code is not None else "None" for message in schemas()]
    cited = [f"Some 0x{message.code:04X}" if message.code is not None else "None" for message in schemas()]
    said = "".join(f"    {code},\n" for code in codes)
    own = "".join(f'    "{name}",\n' for name in names)
    return {
        "crates/schema_lines/src/message_names.rt": (
            f"{NAMES}pub const MESSAGE_COUNT: u32 = {len(names)};\n\n"
            "/// The name of the message of each schema.\n"
            f"pub static MESSAGE_NAMES: [&str; {len(names)}] = [\n{own}];\n\n"
            "/// The code of the type of each schema, if it is the message of a type.\n"
            f"pub static MESSAGE_CODES: [Option<u32>; {len(names)}] = [\n{said}];\n"
            f"{FUNCTIONS}"
        ),
        "crates/schema_lines/specs/MessageNames.antt": (
            SPECS
            + listed("message_names", [f'codes "{name}"' for name in names])
            + "\n-- The code of the type of each schema, if it is the message of a type.\n"
            "unfoldable pub message_codes : List (Option ℕ)\n"
            + listed("message_codes", cited)
        ),
    }


def paths():
    return list(texts())


def files():
    return laid_out(texts())
