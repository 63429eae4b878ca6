"""A client of rxline, the line server of Hazoxe, by Python alone.

    import rxline

    with rxline.connect("/run/hazoxe/hazoxe.sock") as client:
        client.publish("s", "hello")
        for note in client.subscribe("s", rxline.latest(1)):
            if isinstance(note, rxline.Item):
                print(note.place, note.text)

A subscription comes again where its connection or its server was lost, and tells each item once: what it can't tell any more is
told as `Missed`, and that another server began as `Restarted`. `rxline.aio` has the same for asyncio. A text is a str, sent as
UTF-8, or bytes, and bytes when it is told.
"""

from .client import Client, connect
from .errors import (
    BadLine,
    BadVersion,
    Closed,
    ConnectionLost,
    Ended,
    Full,
    NoServer,
    NoSuchSubject,
    NotAllPublished,
    OutOfMemory,
    ProtocolError,
    Refused,
    RxlineError,
    Spent,
    SubjectGone,
    TimedOut,
    TooLong,
)
from .notes import Completed, Failed, Item, Missed, Note, Overflow, Position, Restarted
from .policy import BUFFER, Errors, Strategy, bounded, drop, latest
from .subscription import Subscription

__version__ = "0.1.0"

__all__ = [
    "BUFFER",
    "BadLine",
    "BadVersion",
    "Client",
    "Closed",
    "Completed",
    "ConnectionLost",
    "Ended",
    "Errors",
    "Failed",
    "Full",
    "Item",
    "Missed",
    "NoServer",
    "NoSuchSubject",
    "NotAllPublished",
    "Note",
    "OutOfMemory",
    "Overflow",
    "Position",
    "ProtocolError",
    "Refused",
    "Restarted",
    "RxlineError",
    "Spent",
    "Strategy",
    "SubjectGone",
    "Subscription",
    "TimedOut",
    "TooLong",
    "bounded",
    "connect",
    "drop",
    "latest",
]
