"""Following one subject by asyncio, over connections that end and servers that begin anew, whatever way its notes come."""

import asyncio
import time
from abc import ABC, abstractmethod
from typing import AsyncIterator, Generic, Optional, Protocol, TypeVar

from .._backoff import Backoff
from .._connection import moment_after
from .._following import Told
from ..errors import ConnectionLost, Full, NoServer, OutOfMemory, TimedOut
from ..notes import Note, Position


class Ends(Protocol):
    """A connection."""

    def close(self) -> None: ...


Link = TypeVar("Link", bound=Ends)


class Following(AsyncIterator[Note], ABC, Generic[Link]):
    """The notes of one subject, as `rxline.Subscription`. One task asks for notes at a time; another may close it."""

    def __init__(
        self, told: Told, *, timeout: Optional[float], connect_timeout: Optional[float], patience: Optional[float]
    ) -> None:
        self.timeout = timeout
        self._told, self._connect_timeout, self._reconnects = told, connect_timeout, patience != 0
        self._backoff = Backoff(patience)
        self._closed = asyncio.Event()
        self._link: Optional[Link] = None

    @abstractmethod
    async def _joined(self, ends: Optional[float]) -> Link:
        """A connection that has joined. Refused, NoServer, ConnectionLost, TimedOut."""

    @abstractmethod
    async def _hear_next(self, link: Link, ends: Optional[float]) -> None:
        """Hears what comes next. ConnectionLost, TimedOut."""

    @property
    def position(self) -> Optional[Position]:
        """How far it is, the last note that was handed out included."""
        return self._told.position

    async def __anext__(self) -> Note:
        """The next note. It raises what `rxline.Subscription` does."""
        ends = moment_after(self.timeout)
        while not self._closed.is_set():
            note = self._told.take()
            if note is not None:
                return note
            if self._told.is_over:
                break
            await self._hear(ends)
        self._drop()
        raise StopAsyncIteration

    async def _hear(self, ends: Optional[float]) -> None:
        """Hears what comes next, or joins once more, or waits before the next try."""
        try:
            if self._link is None:
                await self._join(ends)
            else:
                await self._hear_next(self._link, ends)
                self._backoff.reset()
        except (ConnectionLost, NoServer, Full, OutOfMemory) as fault:
            self._drop()
            await self._wait(fault, ends)
        if self._told.is_over or self._told.comes_again:
            self._drop()
            self._told.is_over |= not self._reconnects

    async def _join(self, ends: Optional[float]) -> None:
        most = moment_after(self._connect_timeout)
        ends = most if ends is None or (most is not None and most < ends) else ends
        try:
            self._link = await self._joined(ends)
        except TimedOut as fault:
            raise ConnectionLost(str(fault)) from fault

    async def _wait(self, fault: Exception, ends: Optional[float]) -> None:
        """Waits before the next try; raises the fault where there is to be none."""
        if self._closed.is_set():
            return
        now = time.monotonic()
        pause = self._backoff.pause(now) if self._reconnects else None
        if pause is None:
            raise fault
        is_last = ends is not None and now + pause > ends
        try:
            await asyncio.wait_for(self._closed.wait(), max(0, ends - now) if ends is not None and is_last else pause)
        except asyncio.TimeoutError:
            if is_last:
                raise TimedOut("no server came back in time") from fault

    def _drop(self) -> None:
        if self._link is not None:
            self._link.close()
            self._link = None

    async def close(self) -> None:
        """Leaves the subject. Who awaits the next note is told the end."""
        self._closed.set()
        self._drop()

    async def __aenter__(self: "Self") -> "Self":
        return self

    async def __aexit__(self, *_: object) -> None:
        await self.close()


Self = TypeVar("Self", bound=Following[Ends])
