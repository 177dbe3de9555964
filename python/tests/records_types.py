"""What mypy --strict says of records: nothing of this is run. A line that it has to reject says so."""

import dataclasses
from typing import Optional, Union

from pendratsoa import Incomplete, Item, Malformed, Message, MessageTooLong, Numbering, Replay, Stream, Verdict
from pendratsoa import VerdictKind
from pendratsoa.messages import (
    ErrorBehavior,
    ErrorMessage,
    Failure,
    OutputCommandMessage,
    SetStateCommandMessage,
    SleepCommandMessage,
    Value,
)


def narrowed(item: Item) -> Optional[bytes]:
    command = item.record(SetStateCommandMessage)
    item.record(Value)  # type: ignore[type-var]
    item.record("SetStateCommandMessage")  # type: ignore[arg-type]
    command.key  # type: ignore[union-attr]
    if command is None:
        return None
    command.valu  # type: ignore[attr-defined]
    return command.key + command.frame(item.version)


def compared(verdict: Verdict) -> str:
    verdict.kind.nothing  # type: ignore[attr-defined]
    kind: str = verdict.kind
    return kind if verdict.kind == "same" or verdict.kind is VerdictKind.BAD_RECORDED else verdict.text


def limited(error: MessageTooLong, malformed: Malformed) -> int:
    malformed.offset + 1  # type: ignore[operator]
    return error.code + error.offset + error.length - error.limit


def ended(error: Incomplete) -> int:
    error.code + 1  # type: ignore[operator]
    return error.offset + error.rest


def cut(replay: Replay) -> int:
    replay.recorded_rest()  # type: ignore[operator]
    replay.recorded_rest = 0  # type: ignore[misc]
    return replay.recorded_rest + 1


def renumbered(path: str, command: SetStateCommandMessage) -> bytes:
    numbering = Numbering.load(path, renames={"Fetch": "GetLazyStateCommandMessage"})
    Numbering.load(path, renames=["Fetch"])  # type: ignore[arg-type]
    Stream(8, numbering=path)  # type: ignore[arg-type]
    command.frame(8, numbering)  # type: ignore[misc]
    numbering.read_payload(8)  # type: ignore[call-arg]
    stream = Stream(8, numbering=numbering)
    stream.feed(command.frame(8, numbering=numbering))
    return b"".join(item.bytes for item in stream) + stream.trailing


def read(item: Item) -> Union[bytes, int, None]:
    if not isinstance(item, Message):
        return None
    message = item.message
    message.frame()  # type: ignore[union-attr]
    if isinstance(message, SetStateCommandMessage):
        message.valu  # type: ignore[attr-defined]
        message.value.content  # type: ignore[union-attr]
        return message.value.content if message.value is not None else None
    if isinstance(message, SleepCommandMessage):
        return message.wake_up_time + 1
    if isinstance(message, OutputCommandMessage) and isinstance(message.result, Failure):
        return message.result.code
    if isinstance(message, ErrorMessage) and message.behavior is ErrorBehavior.PAUSE:
        return message.related_command_index
    return None


def made(command: SetStateCommandMessage) -> Optional[Message]:
    SetStateCommandMessage(valu=None)  # type: ignore[call-arg]
    SetStateCommandMessage(key="text")  # type: ignore[arg-type]
    OutputCommandMessage(result=5)  # type: ignore[arg-type]
    command.key = b""  # type: ignore[misc]
    Message.of("SetStatCommand")  # type: ignore[arg-type]
    changed = dataclasses.replace(command, value=Value(b"2"))
    return Message.of("SetStateCommand", changed.encode(), version=9)
