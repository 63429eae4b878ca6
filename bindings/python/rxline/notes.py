"""What a subscriber is told."""

from dataclasses import dataclass
from typing import Optional, Union


@dataclass(frozen=True)
class Position:
    """How far a subscriber is: which server it heard (`epoch`), and the place of the last item that it was told of, or that it
    knows to be missed; -1 before the first. As a text it is `EPOCH-PLACE`, which `Position.parse` reads."""

    epoch: str
    place: int = -1

    def __str__(self) -> str:
        return f"{self.epoch}-{self.place}" if self.place >= 0 else f"{self.epoch}-"

    @classmethod
    def parse(cls, text: str) -> "Position":
        """The position that `str` made this text of. ValueError for another text."""
        epoch, hyphen, place = text.rpartition("-")
        if not hyphen or not (place == "" or place.isdecimal()):
            raise ValueError(f"{text!r} is no position")
        return cls(epoch, int(place) if place else -1)


@dataclass(frozen=True)
class Item:
    """An item. Its place is how many its subject accepted before it, its port that of its producer; a seed has neither."""

    text: bytes
    place: Optional[int] = None
    port: Optional[int] = None


@dataclass(frozen=True)
class Missed:
    """The items from place `first` to place `last` are not told: the subject had them no more when this subscriber came again,
    or its strategy let go of them. Where it came again and was told the end at once, `last` is None, for nothing tells whether
    there were any behind what it heard."""

    first: int
    last: Optional[int]

    @property
    def count(self) -> Optional[int]:
        """How many items that are; None where nothing tells."""
        return None if self.last is None else self.last - self.first + 1


@dataclass(frozen=True)
class Restarted:
    """Another server began, whose places begin at 0. What the one before had behind `last` is lost."""

    last: Position


@dataclass(frozen=True)
class Overflow:
    """This subscriber was too slow for its room, under `bounded`. It comes again by itself, where it reconnects."""


@dataclass(frozen=True)
class Completed:
    """The subject is over. Nothing comes behind it."""


@dataclass(frozen=True)
class Failed:
    """The subject ended by an error. Nothing comes behind it."""

    text: bytes


Note = Union[Item, Missed, Restarted, Overflow, Completed, Failed]
