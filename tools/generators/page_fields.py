"""What the page of view/ has to know of the protocol: of each type whether it is a command or a notification, and its
message; of each message its fields, as JSON names them, with the kind of each. So the page knows which texts of a dump
are bytes, and which fields are not compared.
"""
import json

from . import missing  # noqa: F401
from .proto import earlier, fields_of, json_name, schemas, typed

ABOUT = "The types and the fields of their messages, for the page of view/."
SOURCE = "proto/journal.proto"


def direction(message):
    """Whether a type's message is a command, a notification, or neither of them."""
    if message.is_command():
        return "command"
    return "notification" if message.is_notification() else "core"


def field_entry(field):
    """What the page knows of a field."""
    entry = {"kind": field.message or field.kind}
    if field.presence == "repeated":
        entry["list"] = True
    if field.not_compared:
        entry["compared"] = False
    if field.payload:
        entry["payload"] = True
    return entry


def types():
    """The types by their names, each with its direction and its messages: that of the last version, and those before a
    version."""
    found = {message.type_name(): {"direction": direction(message), "message": message.name} for message in typed()}
    for message, last in earlier():
        found[last.type_name()].setdefault("before", {})[str(message.before_version)] = message.name
    return found


def member(name, text, indent):
    """A member of an object, from its value's text."""
    return f"{' ' * indent}{json.dumps(name)}: {text}"


def laid_out(members, indent):
    """An object, one line per member."""
    return "{\n" + ",\n".join(members) + f"\n{' ' * indent}}}" if members else "{}"


def message_fields(message):
    """The fields of a message, one per line."""
    fields = [member(json_name(field.name), json.dumps(field_entry(field)), 6) for field in fields_of(message)]
    return member(message.name, laid_out(fields, 4), 4)


def files():
    named = [member(name, json.dumps(entry), 4) for name, entry in types().items()]
    messages = [message_fields(message) for message in schemas()]
    parts = [member("types", laid_out(named, 2), 2), member("messages", laid_out(messages, 2), 2)]
    return {"view/protocol.json": laid_out(parts, 0) + "\n"}
