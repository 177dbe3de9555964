"""The records as types of each language, with the comments of the description: what a decoded message is there."""
from . import missing  # noqa: F401
from . import typed_c, typed_go, typed_python, typed_ruby, typed_rust, typed_typescript

ABOUT = "The records as types of each language, with their comments."
SOURCE = "proto/journal.proto and proto/calls.json"
SOURCES = {"include/pendratsoa_messages.h": "journal.proto, calls.json and messages.h.in"}

LANGUAGES = (typed_c, typed_python, typed_typescript, typed_go, typed_rust, typed_ruby)


def files():
    return {path: text for language in LANGUAGES for path, text in language.files().items()}
