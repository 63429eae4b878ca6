"""What a reader of events was told so far, over all its connections, and what the next event tells it."""

import base64
import binascii
from collections import deque
from typing import Deque, Optional

from ._sse import Event
from .errors import ProtocolError
from .notes import Completed, Failed, Item, Missed, Note, Overflow, Position, Restarted


class Account:
    """Makes notes of events. They wait until they are taken, and the position is that of the last one that was. The server passes over
    what its reader knows, and tells a gap and another server by itself."""

    def __init__(self, since: Optional[Position]) -> None:
        self.position = since
        self.last = None if since is None else str(since)  # the id with which it comes again
        self.has_joined = False  # by the connection by which it came last
        self.observer = ""  # its name there
        self.to_ask_for = 0  # items that were taken since then, and not asked for again
        self.is_over = False
        self.comes_again = False
        self._notes: Deque[Note] = deque()
        self._known = since  # what was told with the notes that wait
        self._is_again = False
        self._is_offered = False  # an item, by that connection
        self._heard_seed = False

    def take(self) -> Optional[Note]:
        """The first note that waits."""
        if not self._notes:
            return None
        note = self._notes.popleft()
        self.to_ask_for += isinstance(note, Item)
        if isinstance(note, Item) and note.place is not None and self._known is not None:
            self.position = Position(self._known.epoch, note.place)
        elif isinstance(note, Missed) and note.last is not None and self._known is not None:
            self.position = Position(self._known.epoch, note.last)
        elif isinstance(note, Restarted):
            self.position = self._known
        return note

    def comes(self) -> None:
        """It asks, for the first time or anew; what was told before is taken."""
        self.has_joined = self.comes_again = self._is_offered = False
        self.to_ask_for = 0
        self._is_again = self._known is not None

    def hear(self, event: Event) -> None:
        """An event was told. ProtocolError."""
        if event.last is not None:
            self.last = event.last
        if event.kind in ("next", "next64"):
            self._hear_item(event)
        elif event.kind == "joined":
            self._hear_joined(event.data)
        elif event.kind == "missed":
            self._hear_missed(event.data)
        elif event.kind == "restarted":
            self._hear_restarted(event.data)
        elif event.kind == "overflow":
            self.comes_again = True
            self._notes.append(Overflow())
        elif event.kind == "done":
            self._end(Completed())
        elif event.kind == "failed":
            self._end(Failed(event.data.replace(b"\n", b"\r")))

    def _told(self) -> Position:
        """What the last id says that was told."""
        try:
            return Position.parse(self.last or "")
        except ValueError as fault:
            raise ProtocolError(f"an id {self.last!r}") from fault

    def _hear_joined(self, data: bytes) -> None:
        self.has_joined, self.observer = True, data.decode("ascii", "replace")
        self._known = self._told()
        if self.position is None:
            self.position = Position(self._known.epoch)

    def _hear_item(self, event: Event) -> None:
        text = event.data.replace(b"\n", b"\r") if event.kind == "next" else _decoded(event.data)
        told = self._told()
        self._is_offered = True
        if told == self._known:
            # The id did not change, so the item has no place: it is a seed.
            if self._heard_seed:
                self.to_ask_for += 1  # it is not told again
            else:
                self._notes.append(Item(text))
            self._heard_seed = True
        else:
            self._notes.append(Item(text, told.place))
            self._known = told

    def _hear_missed(self, data: bytes) -> None:
        told = self._told()
        if not data.isdigit():
            raise ProtocolError(f"missed {data!r}")
        self._notes.append(Missed(told.place - int(data) + 1, told.place))
        self._known = told

    def _hear_restarted(self, data: bytes) -> None:
        try:
            before = Position.parse(data.decode("ascii", "replace"))
        except ValueError as fault:
            raise ProtocolError(f"restarted {data!r}") from fault
        self._notes.append(Restarted(before))
        self._known, self._heard_seed = self._told(), False

    def _end(self, note: Note) -> None:
        if self._is_again and not self._is_offered and self._known is not None:
            self._notes.append(Missed(self._known.place + 1, None))
        self.is_over = True
        self._notes.append(note)


def _decoded(data: bytes) -> bytes:
    try:
        return base64.b64decode(data, validate=True)
    except binascii.Error as fault:
        raise ProtocolError(f"an item {data!r}") from fault
