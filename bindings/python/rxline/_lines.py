"""The lines of a session: those that are sent, and what their answers say."""

import re
from typing import Union

from .errors import REFUSALS, ProtocolError, Refused, TooLong
from .policy import Errors, Strategy

MAX_TEXT = 1024  # bytes

Text = Union[str, bytes, bytearray, memoryview]

HELLO = b"HELLO 2\n"

_NAME = re.compile(r"[a-z0-9-]{1,32}")
_KEY = re.compile(r"[!-~]{1,64}")


def check_name(subject: str) -> None:
    """ValueError for what is no name of a subject."""
    if not _NAME.fullmatch(subject):
        raise ValueError(f"{subject!r} is no subject: 1 to 32 of a to z, 0 to 9 and -")


def check_key(key: str) -> None:
    """ValueError for what is no key of an emission."""
    if not _KEY.fullmatch(key):
        raise ValueError(f"{key!r} is no key: 1 to 64 visible characters of ASCII")


def _name(subject: str) -> bytes:
    check_name(subject)
    return subject.encode()


def bytes_of(text: Text) -> bytes:
    """The bytes of a text. TypeError, ValueError, TooLong."""
    if not isinstance(text, (str, bytes, bytearray, memoryview)):
        raise TypeError(f"a text is a str, bytes, a bytearray or a memoryview, not {type(text).__name__}")
    raw = text.encode() if isinstance(text, str) else bytes(text)
    if b"\n" in raw:
        raise ValueError("a text has no line feed")
    if len(raw) > MAX_TEXT:
        raise TooLong()
    return raw


def _bytes(text: Text) -> bytes:
    """The bytes of a text, and where they end in CR one CR more, for one before the LF is no part of a line."""
    raw = bytes_of(text)
    return raw + b"\r" if raw.endswith(b"\r") else raw


def publish_line(subject: str, text: Text) -> bytes:
    return b"PUB %s %s\n" % (_name(subject), _bytes(text))


def complete_line(subject: str) -> bytes:
    return b"END %s\n" % _name(subject)


def fail_line(subject: str, text: Text) -> bytes:
    return b"FAIL %s %s\n" % (_name(subject), _bytes(text))


def join_line(subject: str, strategy: Strategy, errors: Errors) -> bytes:
    return b"SUB %s %s %s\n" % (_name(subject), str(strategy).encode(), errors.value.encode())


def refusal(answer: bytes) -> Refused:
    """What an answer that is not the one wanted says. ProtocolError where it is no refusal."""
    said, _, word = answer.decode("ascii", "replace").partition(" ")
    if said != "ERR" or not word:
        raise ProtocolError(f"an answer {answer!r}")
    return REFUSALS.get(word, Refused)(word)


def check(answer: bytes) -> None:
    """Raises what an answer to a line says, where it is not OK."""
    if answer != b"OK":
        raise refusal(answer)


def check_joined(answer: bytes) -> None:
    """Raises what the answer to a `SUB` says, where it is not JOINED."""
    if not answer.startswith(b"JOINED "):
        raise refusal(answer)


def epoch_in(note: bytes) -> str:
    """The text of an item that tells the epoch of its server."""
    words = note.split(b" ", 3)
    if words[0] != b"NEXT" or len(words) != 4:
        raise ProtocolError(f"an epoch {note!r}")
    return words[3].decode("utf-8", "replace")
