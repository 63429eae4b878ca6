"""Following one subject, over connections that end and servers that begin anew, whatever way its notes come."""

import threading
import time
from abc import ABC, abstractmethod
from typing import Generic, Iterator, Optional, Protocol, TypeVar

from ._backoff import Backoff
from ._connection import moment_after
from .errors import ConnectionLost, Full, NoServer, OutOfMemory, TimedOut
from .notes import Note, Position


class Told(Protocol):
    """What was told so far: the notes that wait, how far those go that were taken, and whether more come."""

    position: Optional[Position]
    is_over: bool
    comes_again: bool

    def take(self) -> Optional[Note]: ...


class Ends(Protocol):
    """A connection."""

    def shut(self) -> None: ...

    def close(self) -> None: ...


Link = TypeVar("Link", bound=Ends)


class Following(Iterator[Note], ABC, Generic[Link]):
    """The notes of one subject. It ends behind `Completed` or `Failed`, and once it is closed."""

    def __init__(
        self, told: Told, *, timeout: Optional[float], connect_timeout: Optional[float], patience: Optional[float]
    ) -> None:
        self.timeout = timeout
        self._told, self._connect_timeout, self._reconnects = told, connect_timeout, patience != 0
        self._backoff = Backoff(patience)
        self._closed, self._in_use = threading.Event(), threading.Lock()
        self._link: Optional[Link] = None
        self._join(moment_after(connect_timeout))

    @abstractmethod
    def _joined(self, ends: Optional[float]) -> Link:
        """A connection that has joined. Refused, NoServer, ConnectionLost, TimedOut."""

    @abstractmethod
    def _hear_next(self, link: Link, ends: Optional[float]) -> None:
        """Hears what comes next. ConnectionLost, TimedOut."""

    @property
    def position(self) -> Optional[Position]:
        """How far it is, the last note that was handed out included."""
        return self._told.position

    def __next__(self) -> Note:
        """The next note. TimedOut, where none comes within `timeout` seconds, after which it can be asked for again;
        ConnectionLost or NoServer, where it may not reconnect, or has tried for `patience` seconds; Refused, where the next
        server has no such subject, or can't take one more observer for good."""
        with self._in_use:
            note = self._take_or_hear(moment_after(self.timeout))
            if note is None:
                self._drop()
                raise StopIteration
            return note

    def _take_or_hear(self, ends: Optional[float]) -> Optional[Note]:
        """The next note; None at the end."""
        while not self._closed.is_set():
            note = self._told.take()
            if note is not None or self._told.is_over:
                return note
            self._hear(ends)
        return None

    def _hear(self, ends: Optional[float]) -> None:
        """Hears what comes next, or joins once more, or waits before the next try."""
        try:
            if self._link is None:
                self._join(ends)
            else:
                self._hear_next(self._link, ends)
                self._backoff.reset()
        except (ConnectionLost, NoServer, Full, OutOfMemory) as fault:
            self._drop()
            self._wait(fault, ends)
        if self._told.is_over or self._told.comes_again:
            self._drop()
            self._told.is_over |= not self._reconnects

    def _join(self, ends: Optional[float]) -> None:
        most = moment_after(self._connect_timeout)
        ends = most if ends is None or (most is not None and most < ends) else ends
        try:
            self._link = self._joined(ends)
        except TimedOut as fault:
            raise ConnectionLost(str(fault)) from fault

    def _wait(self, fault: Exception, ends: Optional[float]) -> None:
        """Waits before the next try; raises the fault where there is to be none."""
        if self._closed.is_set():
            return
        now = time.monotonic()
        pause = self._backoff.pause(now) if self._reconnects else None
        if pause is None:
            raise fault
        if ends is not None and now + pause > ends:
            self._closed.wait(max(0, ends - now))
            raise TimedOut("no server came back in time") from fault
        self._closed.wait(pause)

    def _drop(self) -> None:
        if self._link is not None:
            self._link.close()
            self._link = None

    def close(self) -> None:
        """Leaves the subject. Another thread may call it, and who waits for the next note there is told the end."""
        self._closed.set()
        link = self._link
        if link is not None:
            link.shut()
        if self._in_use.acquire(blocking=False):  # else who waits for a note lets go of it
            self._drop()
            self._in_use.release()

    def __enter__(self: "Self") -> "Self":
        return self

    def __exit__(self, *_: object) -> None:
        self.close()


Self = TypeVar("Self", bound=Following[Ends])
