"""How a subscriber wants its items: what becomes of those that it has no room for, and where an error stands among them."""

import enum
from dataclasses import dataclass
from typing import Optional

MAX_ROOM = 1024  # items


@dataclass(frozen=True)
class Strategy:
    """What becomes of items for which the subscriber is too slow. BUFFER, `drop`, `latest` and `bounded` are all there are."""

    word: str
    room: Optional[int] = None

    def __str__(self) -> str:
        return self.word if self.room is None else f"{self.word}:{self.room}"


BUFFER = Strategy("BUFFER")
"""All items wait."""


def _with_room(word: str, room: int, least: int) -> Strategy:
    if not least <= room <= MAX_ROOM:
        raise ValueError(f"a room of {word} is {least} to {MAX_ROOM} items, not {room}")
    return Strategy(word, room)


def drop(room: int = 0) -> Strategy:
    """The first `room` items wait, and the others are lost."""
    return _with_room("DROP", room, 0)


def latest(room: int = 1) -> Strategy:
    """The newest `room` items wait, at least 1, and older ones are lost."""
    return _with_room("LATEST", room, 1)


def bounded(room: int) -> Strategy:
    """`room` items wait; one more ends this subscriber's line by an overflow."""
    return _with_room("BOUNDED", room, 0)


class Errors(enum.Enum):
    """Where an error stands: before the items that wait, which are then lost, or behind them."""

    AHEAD = "AHEAD"
    DELAY = "DELAY"
