"""What a subscriber was told so far, over all its connections, and what the next line tells it."""

from collections import deque
from typing import Deque, Optional

from .errors import ProtocolError
from .notes import Completed, Failed, Item, Missed, Note, Overflow, Position, Restarted
from .policy import Strategy


class Progress:
    """Makes notes of lines, so that each item is told once, and a gap or another server is told too. They wait until they are
    taken, and the position is that of the last one that was."""

    def __init__(self, since: Optional[Position], strategy: Strategy) -> None:
        self.position = since
        self._notes: Deque[Note] = deque()
        self._epoch = None if since is None else since.epoch
        # The place that is to come next; None before the first item, for who comes anew wants what there is.
        self._next = None if since is None else since.place + 1
        self._may_overflow = strategy.word == "BOUNDED"
        self._is_offered = False  # an item, by the connection by which it joined last
        self._heard_seed = False
        self._heard_more = True  # than at the last overflow
        self.is_over = False
        self.comes_again = False

    def take(self) -> Optional[Note]:
        """The first note that waits."""
        if not self._notes:
            return None
        note = self._notes.popleft()
        if self._epoch is not None:
            self.position = self._behind(note, self._epoch)
        return note

    def _behind(self, note: Note, epoch: str) -> Optional[Position]:
        """The position of who was told this note."""
        if isinstance(note, Item) and note.place is not None:
            return Position(epoch, note.place)
        if isinstance(note, Missed) and note.last is not None:
            return Position(epoch, note.last)
        return Position(epoch) if isinstance(note, Restarted) else self.position

    def joined(self, epoch: str) -> None:
        """It has joined at the server of this epoch, and what was told before is taken."""
        self.comes_again = self._is_offered = False
        if self._epoch is None:
            self._epoch, self.position = epoch, Position(epoch)
        elif self._epoch == epoch:
            self._next = self._next or 0
        else:
            self._notes.append(Restarted(self.position or Position(self._epoch)))
            self._epoch, self._next, self._heard_seed = epoch, 0, False

    def hear(self, line: bytes) -> None:
        """A line was told at the server where it joined last."""
        word, _, rest = line.partition(b" ")
        if word == b"NEXT":
            self._hear_item(line, rest)
        elif line == b"DONE":
            self._end(Completed())
        elif word == b"FAILED" and rest == b"OVERFLOW" and self._may_overflow and self._heard_more:
            # Twice with nothing new in between it is the subject's own error, or no room will ever do.
            self._heard_more, self.comes_again = False, True
            self._notes.append(Overflow())
        elif word == b"FAILED":
            self._end(Failed(rest))
        else:
            raise ProtocolError(f"a note {line!r}")

    def _end(self, note: Note) -> None:
        if self._next is not None and not self._is_offered:
            self._notes.append(Missed(self._next, None))
        self.is_over = True
        self._notes.append(note)

    def _hear_item(self, line: bytes, rest: bytes) -> None:
        words = rest.split(b" ", 2)
        if len(words) == 3 and words[:2] == [b"-", b"-"]:
            self._hear_seed(words[2])
        elif len(words) == 3 and words[0].isdigit() and words[1].isdigit():
            self._hear_place(Item(words[2], int(words[0]), int(words[1])), int(words[0]))
        else:
            raise ProtocolError(f"a note {line!r}")

    def _hear_seed(self, text: bytes) -> None:
        self._is_offered = True
        if not self._heard_seed:
            self._heard_seed = True
            self._notes.append(Item(text))

    def _hear_place(self, item: Item, place: int) -> None:
        self._is_offered = True
        awaited = place if self._next is None else self._next
        if place < awaited:
            return
        if place > awaited:
            self._notes.append(Missed(awaited, place - 1))
        self._notes.append(item)
        self._next, self._heard_more = place + 1, True
