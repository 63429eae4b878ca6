"""Subjects of ReactiveX with backpressure, over the library for C, which is proved.

    with Subject(Kind.REPLAY, count=16) as subject:
        subject.next(b"hello")
        observer = subject.join(Strategy.BUFFER, first=1)
        subject.next(b"world")                      # waits: one item was asked for
        observer.request(10)
        for note in subject.given():
            print(note.observer, note.kind.name, note.text)

A subject passes each note from its producers to its observers, in order and once. Each observer says how many items it wants,
and by its strategy what becomes of those that it did not ask for yet. A call that is refused raises `Refused`, and leaves the
subject as it was. Threads may share a subject: no two calls of the library overlap, since each keeps Python's global lock.

The library is the file that the variable HAZOXE names, else libhazoxe.so beside this file, where `./install` and pip put it, else
what the system knows as libhazoxe.so.0. This module is not proved: it hands on what it is told.
"""

import ctypes
import enum
import itertools
import os
import sys
import threading
from collections import deque
from ctypes import POINTER, byref, c_char_p, c_size_t, c_uint32, c_uint64, c_void_p
from typing import Deque, Dict, Iterator, NamedTuple, Optional, Tuple, Union

__version__ = "0.1.0"

MOST = 2**32 - 1  # of joins, of items, and of items that are owed
MAX_TEXT = 1024  # bytes

Text = Union[bytes, bytearray, memoryview]


class Kind(enum.IntEnum):
    """What a joiner is given to begin with."""

    PUBLISH = 0
    BEHAVIOR = 1
    ASYNC = 3
    REPLAY = 4


class Strategy(enum.IntEnum):
    """What becomes of items that an observer did not request yet."""

    BUFFER = 0
    DROP = 1
    LATEST = 2
    BOUNDED = 3


class Errors(enum.IntEnum):
    """Where an error stands among the items that wait: before them, or behind them."""

    AHEAD = 0
    DELAY = 1


class NoteKind(enum.IntEnum):
    """An item, or a terminal, after which nothing comes."""

    NEXT = 0
    COMPLETED = 1
    FAILED = 2


class Cause(enum.IntEnum):
    """Why a call was refused. The first seven are the subject's refusals, in its order."""

    ENDED = 1
    FULL = 2
    SPENT = 3
    ZERO_REQUEST = 4
    NO_OBSERVER = 5
    TOO_MUCH = 6
    MEMORY = 7
    NO_SUBJECT = 8
    HOLDS_SUBJECT = 9
    BAD_KIND = 10
    BAD_SEED = 11
    BAD_COUNT = 12
    BAD_AGE = 13
    BAD_LIMITS = 14
    TOO_LONG = 15
    HAS_LF = 16
    BAD_STRATEGY = 17
    BAD_ROOM = 18
    BAD_ERRORS = 19
    NOTHING_GIVEN = 20
    BUFFER_TOO_SMALL = 21
    NULL = 22


SENTENCES = {
    Cause.ENDED: "the subject has ended",
    Cause.FULL: "as many observers are held as may be",
    Cause.SPENT: "as many joins or items were accepted as may be",
    Cause.ZERO_REQUEST: "a request is for at least 1 item",
    Cause.NO_OBSERVER: "no observer of that number is held",
    Cause.TOO_MUCH: "more than 4294967295 items would be owed",
    Cause.MEMORY: "there is no memory, or the budget has no bytes left",
    Cause.NO_SUBJECT: "there is no subject, or it is closed",
    Cause.HOLDS_SUBJECT: "there is a subject already",
    Cause.BAD_KIND: "there is no such kind",
    Cause.BAD_SEED: "a seed is for a Behavior alone",
    Cause.BAD_COUNT: "a count is 1 to 4096, and for a Replay alone",
    Cause.BAD_AGE: "an age is at least 1 millisecond, and for a Replay alone",
    Cause.BAD_LIMITS: "limits are 1 to 64 observers, and at least 1 join and item",
    Cause.TOO_LONG: "a text has at most 1024 bytes",
    Cause.HAS_LF: "a text has no line feed",
    Cause.BAD_STRATEGY: "there is no such strategy",
    Cause.BAD_ROOM: "a room has 0 to 1024 items, under Latest 1 to 1024, under Buffer 0",
    Cause.BAD_ERRORS: "there is no such error mode",
    Cause.NOTHING_GIVEN: "no note waits to be taken",
    Cause.BUFFER_TOO_SMALL: "the text has more bytes than the buffer",
    Cause.NULL: "a pointer is NULL",
}


class Refused(Exception):
    """A call did nothing, for this cause."""

    def __init__(self, cause: Cause):
        super().__init__(f"{cause.name}: {SENTENCES[cause]}")
        self.cause = cause


class Note(NamedTuple):
    """A note that was given. Port and place are those of an item; a seed has MOST for both."""

    observer: int
    kind: NoteKind
    port: int
    place: int
    text: bytes


class Counts(NamedTuple):
    """Observers held, joins accepted, notes given and not taken yet, events refused for want of memory."""

    observers: int
    joins: int
    given: int
    misses: int


class _Subject(ctypes.Structure):
    _fields_ = [("hidden", c_void_p), ("mark", c_uint64)]


class _Rules(ctypes.Structure):
    _fields_ = [("age", c_uint64), ("budget", c_uint64), ("kind", c_uint32), ("count", c_uint32)] + [
        (name, c_uint32) for name in ("observers", "joins", "items")
    ]


class _Note(ctypes.Structure):
    _fields_ = [(name, c_uint32) for name in ("observer", "kind", "port", "place")] + [("length", c_size_t)]


class _Counts(ctypes.Structure):
    _fields_ = [("observers", c_uint32), ("joins", c_uint32), ("given", c_size_t), ("misses", c_uint64)]


_SEEDED = 2  # the library's number of Behavior with a seed

_HOW_TO_BUILD = """
In the repository `./install PREFIX` builds it, and puts it beside this module in PREFIX/share/hazoxe/python. Another place for it
is told by the variable HAZOXE."""


def _load() -> ctypes.PyDLL:
    """The library, by calls that keep the global lock: so no two of them overlap."""
    if not getattr(sys, "_is_gil_enabled", lambda: True)():
        raise ImportError("hazoxe: rests on Python's global lock, which this one runs without (PYTHON_GIL=1 brings it back)")
    beside = os.path.join(os.path.dirname(os.path.abspath(__file__)), "libhazoxe.so")
    path = os.environ.get("HAZOXE") or (beside if os.path.exists(beside) else "libhazoxe.so.0")
    try:
        return ctypes.PyDLL(path)
    except OSError as fault:
        raise ImportError(f"hazoxe: the library is not to be had: {fault}.{_HOW_TO_BUILD}") from fault


_library = _load()


def _call(name: str, *types):
    function = getattr(_library, "hazoxe_proved_" + name)
    function.argtypes = [POINTER(_Subject), *types]
    function.restype = c_uint32
    return function


_open = _call("open", POINTER(_Rules), c_char_p, c_size_t)
_close = _call("close")
_next = _call("next", c_uint32, c_uint64, c_char_p, c_size_t)
_complete = _call("complete", c_uint32, c_uint64)
_error = _call("error", c_uint32, c_uint64, c_char_p, c_size_t)
_join = _call("join", c_uint32, c_uint32, c_uint32, c_uint32, c_uint64, POINTER(c_uint32))
_request = _call("request", c_uint32, c_uint32)
_dispose = _call("dispose", c_uint32)
_take = _call("take", POINTER(_Note), c_void_p, c_size_t)
_waiting = _call("waiting", c_uint32, POINTER(c_size_t))
_count = _call("count", POINTER(_Counts))


def _check(number: int) -> None:
    if number != 0:
        raise Refused(Cause(number))


def _number(value: int, most: int = MOST) -> int:
    if not 0 <= value <= most:
        raise ValueError(f"{value} is not 0 to {most}")
    return value


def _bytes(text: Text) -> bytes:
    if isinstance(text, (bytes, bytearray, memoryview)):
        return bytes(text)
    raise TypeError(f"a text is bytes, a bytearray or a memoryview, not {type(text).__name__}; of a str, text.encode()")


class _Place:
    """Where the library writes one note."""

    def __init__(self) -> None:
        self.head = _Note()
        self.text = ctypes.create_string_buffer(MAX_TEXT)

    def note(self) -> Note:
        head = self.head
        return Note(head.observer, NoteKind(head.kind), head.port, head.place, self.text[: head.length])


class Observer:
    """An observer of a subject, by its number."""

    def __init__(self, subject: "Subject", number: int):
        self.subject = subject
        self.number = number

    def __repr__(self) -> str:
        return f"<Observer {self.number} of {self.subject!r}>"

    def given(self) -> Iterator[Note]:
        """The notes that this observer was given and that were not taken yet, in their order; each that is yielded is taken.
        The others' are put aside for their own iterators and for `Subject.given`; no budget counts what is put aside."""
        return self.subject._notes(self.number)

    def request(self, n: int) -> None:
        """Requests n items more. ZERO_REQUEST, NO_OBSERVER, TOO_MUCH, MEMORY."""
        self.subject.request(self.number, n)

    def dispose(self) -> None:
        """Leaves, with what waits. NO_OBSERVER."""
        self.subject.dispose(self.number)

    def waiting(self) -> int:
        """How many notes wait for it to request them, the terminal included. NO_OBSERVER."""
        return self.subject.waiting(self.number)


class Subject:
    """A subject. Moments (`at`) are milliseconds of the caller's own clock, ports are numbers of the caller's own. A text is
    bytes, a bytearray or a memoryview."""

    def __init__(
        self,
        kind: Kind = Kind.PUBLISH,
        *,
        seed: Optional[Text] = None,
        count: Optional[int] = None,
        age: Optional[int] = None,
        observers: int = 64,
        joins: int = MOST,
        items: int = MOST,
        budget: Optional[int] = None,
    ):
        """BAD_SEED, TOO_LONG, HAS_LF, BAD_COUNT, BAD_AGE, BAD_LIMITS, MEMORY; but a count or an age of 0 goes first."""
        self._raw = _Subject()
        self._kind = Kind(kind)
        self._taking = threading.RLock()
        self._aside: Dict[int, Deque[Tuple[int, Note]]] = {}
        self._serials = itertools.count()
        if count == 0 or age == 0:
            raise Refused(Cause.BAD_COUNT if count == 0 else Cause.BAD_AGE)
        if seed is not None and self._kind != Kind.BEHAVIOR:
            raise Refused(Cause.BAD_SEED)
        rules = _Rules(
            _number(age or 0, 2**64 - 1),
            _number(budget or 0, 2**64 - 1),
            self._kind if seed is None else _SEEDED,
            *(_number(number) for number in (count or 0, observers, joins, items)),
        )
        first = b"" if seed is None else _bytes(seed)
        _check(_open(byref(self._raw), byref(rules), first, len(first)))

    def __repr__(self) -> str:
        try:
            return f"<Subject {self._kind.name}: {self.counts()}>"
        except Refused:
            return f"<Subject {self._kind.name}: closed>"

    def next(self, text: Text, port: int = 0, at: int = 0) -> None:
        """A producer emits an item. TOO_LONG, HAS_LF, MEMORY for the text, ENDED, SPENT, MEMORY."""
        text = _bytes(text)
        _check(_next(byref(self._raw), _number(port), _number(at, 2**64 - 1), text, len(text)))

    def complete(self, port: int = 0, at: int = 0) -> None:
        """A producer completes the subject. ENDED, MEMORY."""
        _check(_complete(byref(self._raw), _number(port), _number(at, 2**64 - 1)))

    def error(self, text: Text, port: int = 0, at: int = 0) -> None:
        """A producer ends the subject by an error. TOO_LONG, HAS_LF, MEMORY for the text, ENDED, MEMORY."""
        text = _bytes(text)
        _check(_error(byref(self._raw), _number(port), _number(at, 2**64 - 1), text, len(text)))

    def join(
        self,
        strategy: Strategy = Strategy.BUFFER,
        room: Optional[int] = None,
        errors: Errors = Errors.DELAY,
        first: int = 0,
        at: int = 0,
    ) -> Observer:
        """An observer joins, with a request of `first` items. A room that is left out is the least: 1 under LATEST, else 0.
        BAD_ROOM, FULL, SPENT, MEMORY."""
        who = c_uint32()
        strategy, errors = Strategy(strategy), Errors(errors)
        if room is None:
            room = 1 if strategy == Strategy.LATEST else 0
        asked = (strategy, _number(room), errors, _number(first), _number(at, 2**64 - 1))
        _check(_join(byref(self._raw), *asked, byref(who)))
        return Observer(self, who.value)

    def request(self, who: int, n: int) -> None:
        """Observer `who` requests n items more."""
        _check(_request(byref(self._raw), _number(who), _number(n)))

    def dispose(self, who: int) -> None:
        """Observer `who` leaves. What it was given can still be taken."""
        _check(_dispose(byref(self._raw), _number(who)))

    def waiting(self, who: int) -> int:
        """How many notes wait for observer `who` to request them."""
        count = c_size_t()
        _check(_waiting(byref(self._raw), _number(who), byref(count)))
        return count.value

    def counts(self) -> Counts:
        """What can be counted of it."""
        counts = _Counts()
        with self._taking:
            _check(_count(byref(self._raw), byref(counts)))
            aside = sum(map(len, self._aside.values()))
        return Counts(counts.observers, counts.joins, counts.given + aside, counts.misses)

    def given(self) -> Iterator[Note]:
        """The notes that were given and not taken yet, of all observers, in their order; each that is yielded is taken. Who wants
        those of one observer goes by `Observer.given`, which leaves the others theirs."""
        return self._notes(None)

    def _notes(self, who: Optional[int]) -> Iterator[Note]:
        place = _Place()
        while True:
            note = self._first(who, place)
            if note is None:
                return
            yield note

    def _first(self, who: Optional[int], place: _Place) -> Optional[Note]:
        """Takes the first note, or the first of observer `who`; those of others that come before it are put aside."""
        with self._taking:
            note = self._first_aside(who)
            while note is None:
                number = _take(byref(self._raw), byref(place.head), place.text, MAX_TEXT)
                if number == Cause.NOTHING_GIVEN:
                    return None
                _check(number)
                note = place.note()
                if who not in (None, note.observer):
                    self._aside.setdefault(note.observer, deque()).append((next(self._serials), note))
                    note = None
            return note

    def _first_aside(self, who: Optional[int]) -> Optional[Note]:
        """The first of all that were put aside, or of those of one observer."""
        if who is None:
            who = min(self._aside, key=lambda each: self._aside[each][0], default=None)
        notes = self._aside.get(who)
        if notes is None:
            return None
        _, note = notes.popleft()
        if not notes:
            del self._aside[who]
        return note

    def close(self) -> None:
        """Lets go of it, with the notes that were not taken. Each later call raises NO_SUBJECT, but another of this one."""
        with self._taking:
            self._aside.clear()
            _close(byref(self._raw))

    def __enter__(self) -> "Subject":
        return self

    def __exit__(self, *_) -> None:
        self.close()

    def __del__(self) -> None:
        if hasattr(self, "_aside"):
            self.close()
