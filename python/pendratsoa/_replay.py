"""A replay that is checked by its recording, item by item."""

from __future__ import annotations

import io
import struct
import threading
from dataclasses import dataclass
from typing import Iterator, Optional, Tuple, cast

from . import _calls
from ._declared import REPLAY_IGNORE_IDS, REPLAY_IGNORE_PAYLOADS, REPLAY_NUMBERS, VerdictKind
from ._fast import pending_of
from ._items import Item, Message, Skipped, UnknownCode, came, longer_by
from ._kinds import BytesLike
from ._named import named
from ._request import Request
from ._stream import Stream

# the numbers of a replay, as the library has them
NUMBERS = struct.Struct(f"{REPLAY_NUMBERS}Q")

# how many bytes a header has
HEADER = 8


@dataclass(frozen=True)
class ChangedField:
    """A field in which two commands differ, as the text of their mismatch prints it: its name, as in the .proto, and
    the value of the `recorded` and of the `replayed` command.

    A text is as it is in the journal, of any length and with any control characters; bytes are quoted. Escape them
    before you print them in a line.
    """

    name: str
    """The name of the field, as in the .proto."""

    recorded: str
    """What the recorded command has. Escape it before you print it in a line."""

    replayed: str
    """What the replayed command has. Escape it before you print it in a line."""


@dataclass(frozen=True)
class Mismatch:
    """Where a replay leaves its recording: all commands before this one are the same."""

    kind: VerdictKind
    """Which verdict it is; never `same`."""

    index: int
    """The index of the command, from 0."""

    recorded_offset: Optional[int]
    """Where the recorded command begins in the recording, in bytes. If the recording has ended, where its last command
    begins, or None if it has none."""

    replayed_offset: int
    """Where the replayed command begins in the replay, in bytes, or where the replay ends."""

    text: str
    """The text of a mismatch of two commands, as the SDKs report it; otherwise empty. It has several lines, and the
    values of the fields as they are."""

    fields: Tuple[ChangedField, ...]
    """The printed fields in which two commands of one type differ. Empty if the commands differ only in what is not
    printed, such as the name of most commands."""


class Replay:
    """A replay of a version from 5 to 9, which is checked by its recording as it comes.

        replay = Replay(8, recorded)
        for item in stream.read(file):
            mismatch = replay.check(item)

    The recording is a whole journal; `recorded_rest` tells if it is cut. `ignore_payloads` leaves the content of user
    data out of the comparison, but not that of a signal, and `ignore_ids` leaves completion ids out. Nothing of the
    replay is kept: its memory does not grow. Several threads may use one replay.
    """

    def __init__(
        self, version: int, recorded: BytesLike, ignore_payloads: bool = False, ignore_ids: bool = False
    ) -> None:
        self._recorded = Request("Replay", recorded=recorded).data("recorded")
        # that there is no such version is known before an item comes
        named.Replay(version, b"", b"", ignore_payloads)
        options = (REPLAY_IGNORE_PAYLOADS if ignore_payloads else 0) | (REPLAY_IGNORE_IDS if ignore_ids else 0)
        self._replay = NUMBERS.pack(version, options, 0, 0, 0, 0)
        # how many bytes longer the items were as received
        self._longer = 0
        # of one thread; whether it is within `check`, as where a signal comes
        self._lock = threading.RLock()
        self._within = False

    @property
    def version(self) -> int:
        """The version of the replay."""
        return self._numbers()[0]

    @property
    def index(self) -> int:
        """How many commands were the same, which is the index of the one that comes next."""
        return self._numbers()[2]

    @property
    def recorded_rest(self) -> int:
        """How many bytes of the recording follow its last whole item, which are not compared: 0 of a whole one. It
        walks over the recording."""
        numbers = self._numbers()
        # the last command that was the same is a whole item, as are all before it; a part at a time is copied
        recorded = io.BytesIO(self._recorded)
        recorded.seek(numbers[3])
        stream = Stream(numbers[0])
        for _ in stream.read(recorded, strict=False):
            pass
        return stream.rest

    def check(self, item: Item) -> Optional[Mismatch]:
        """Checks the next item of the replay by the command that comes next in the recording.

        None if there is nothing to report: the commands are the same, or the item is not a command. A custom entry is
        not compared. A mismatch is reported once: afterwards nothing is compared. `compare_journals` of the recording
        and of all items so far has the same `kind`, `index` and `text`. `OutOfMemory` changes nothing, so that the call
        can be repeated.
        """
        if not isinstance(item, (Message, UnknownCode, Skipped)):
            raise TypeError(f"check: item must be an item of a stream, not {type(item).__name__}")
        payload = b"" if isinstance(item, UnknownCode) else item.payload
        with self._lock:
            if self._within:
                raise RuntimeError("check: the replay is within another check, which has not ended")
            self._within = True
            try:
                is_said, numbers, replay = named.check(item.code, self._recorded, payload, self._replay)
                found = self._mismatch("check", item.code, payload, numbers) if is_said else None
                # the replay goes on once all of the mismatch is there
                self._replay = replay
                self._longer += longer_by(item)
                return found
            finally:
                self._within = False

    def expected(self) -> Optional[Message]:
        """The command that comes next in the recording, which is not taken; None if there is none.

        Its `offset` is that in the recording, and its `message` has the name or the key of a command that has one.
        After a mismatch it is the command at the index of that.
        """
        is_there, (offset, _, size) = named.expected(self._recorded, self._replay)
        if not is_there:
            return None
        pending = pending_of(self.version, None)
        pending.feed(self._recorded[offset : offset + size])
        return came(cast(Message, pending.take()), offset)

    def finish(self) -> Optional[Mismatch]:
        """Says that the replay ended. None if nothing is left of the recording, or a mismatch was reported; otherwise
        the mismatch of the command that comes next, whose kind is `replayed_ended`. It changes nothing."""
        with self._lock:
            is_left, numbers = named.finish(self._recorded, self._replay)
            return self._mismatch("finish", 0, b"", numbers) if is_left else None

    def __repr__(self) -> str:
        return f"<Replay of version {self.version}, {self.index} commands the same>"

    def _numbers(self) -> Tuple[int, ...]:
        """The numbers of the replay."""
        return NUMBERS.unpack(self._replay)

    def _mismatch(self, call: str, code: int, payload: BytesLike, numbers: Tuple[int, ...]) -> Mismatch:
        """The mismatch of these numbers, of the item of this code and payload."""
        number, index, replayed_offset, recorded_offset, _, size = numbers
        kind = _calls.kind_of(call, VerdictKind, number, "verdict")
        text = ""
        fields: Tuple[ChangedField, ...] = ()
        if kind in (VerdictKind.TYPE_MISMATCH, VerdictKind.HEADER_MISMATCH):
            text = named.replay_text(code, self._recorded, payload, self._replay).decode()
        if kind is VerdictKind.HEADER_MISMATCH:
            recorded = self._recorded[recorded_offset + HEADER : recorded_offset + size]
            fields = tuple(_changed_fields(code, recorded, payload))
        replayed_offset += self._longer
        return Mismatch(kind, index, recorded_offset if size else None, replayed_offset, text, fields)


def _changed_fields(code: int, recorded: bytes, replayed: BytesLike) -> Iterator[ChangedField]:
    """The printed fields in which two commands of a type differ."""
    index = 0
    while True:
        found, (name_length, first_length, _) = named.changed_field(code, index, recorded, replayed)
        if not found:
            return
        second = name_length + first_length
        yield ChangedField(
            found[:name_length].decode(), found[name_length:second].decode(), found[second:].decode()
        )
        index += 1
