"""What protoc reads in proto/journal.proto, proto/journal.json, for a machine without protoc."""
from . import descriptors
from .proto import description, digest, messages, without_protoc

ABOUT = "The description as protoc reads it."
SOURCE = "proto/journal.proto, by protoc"


def missing():
    return without_protoc()


def paths():
    return ["proto/journal.json"]


def files():
    messages()
    return {path: f'{{"of": "{digest()}", "description": {descriptors.to_json(description())}}}\n' for path in paths()}
