"""What a call may raise, beside a ValueError or a TypeError for what is no text, subject or policy."""

from typing import Dict, Sequence, Tuple, Type

from .notes import Position


class RxlineError(Exception):
    """Each error of this package is one of these."""


class NoServer(RxlineError, ConnectionError):
    """Nobody listens at the path. Nothing was sent."""


class ConnectionLost(RxlineError, ConnectionError):
    """The connection ended before the answer came. What was sent may have been carried out, or not."""


class TimedOut(RxlineError, TimeoutError):
    """Nothing came in time. What was sent may have been carried out, or not."""


class ProtocolError(RxlineError):
    """The server said what no server of this protocol says."""


class Closed(RxlineError):
    """The client was closed."""


class Refused(RxlineError):
    """The server answered `ERR` and a word: the line changed nothing, and the connection goes on."""

    word = ""
    sentence = ""

    def __init__(self, word: str = "") -> None:
        self.word = word or self.word
        super().__init__(f"{self.word}: {self.sentence}" if self.sentence else self.word)


class TooLong(Refused):
    """The text has more than 1,024 bytes. Such a text is not sent."""

    word, sentence = "LONG", "a text has at most 1,024 bytes"


class BadLine(Refused):
    """The server does not know the line: it is of another version."""

    word, sentence = "SYNTAX", "the server does not know the line"


class NoSuchSubject(Refused):
    """The configuration has no subject of that name."""

    word, sentence = "SUBJECT", "the server has no such subject"


class Ended(Refused):
    """Somebody completed the subject, or failed it: for good, until the server is started again."""

    word, sentence = "ENDED", "the subject has ended"


class Full(Refused):
    """As many observers are held as may be: it may go once one has left."""

    word, sentence = "FULL", "as many observers are held as may be"


class Spent(Refused):
    """As many joins, or items, were accepted as may be, until the server is started again."""

    word, sentence = "SPENT", "as many joins or items were accepted as may be"


class OutOfMemory(Refused):
    """The server had no memory, or the budget of the subject is used up: it may go later."""

    word, sentence = "MEMORY", "there is no memory, or the subject's budget is used up"


class SubjectGone(Refused):
    """The thread of the subject ended by a fault of its own: the server has to be started again."""

    word, sentence = "GONE", "the subject's thread ended by a fault"


class BadVersion(Refused):
    """The server does not speak version 2."""

    word, sentence = "VERSION", "the server does not speak this version"


REFUSALS: Dict[str, Type[Refused]] = {
    each.word: each
    for each in (TooLong, BadLine, NoSuchSubject, Ended, Full, Spent, OutOfMemory, SubjectGone, BadVersion)
}


class NotAllPublished(RxlineError):
    """Of many texts some were not accepted. The numbers are places in what was handed in, from 0.

    `accepted` tells how many were; `refused` has each that was refused, and why; those of `unanswered` were sent, and the
    connection ended before their answers: they may have been emitted, or not. Those from `unanswered.stop` on were not sent, or
    not looked at. `positions` has where those stand that `rxline.events.publish_lines` knows to be accepted.
    """

    def __init__(self, accepted: int, refused: Dict[int, Refused], unanswered: range, positions: Sequence[Position] = ()) -> None:
        self.accepted, self.refused, self.unanswered = accepted, refused, unanswered
        self.positions: Tuple[Position, ...] = tuple(positions)
        super().__init__(f"{accepted} accepted, {len(refused)} refused, {len(unanswered)} unanswered")
