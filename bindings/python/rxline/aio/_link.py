"""A producer's connection, on which many tasks ask at a time."""

import asyncio
import time
from collections import deque
from typing import Deque, List, Optional, Tuple

from .._connection import Path, moment_after
from ..errors import ConnectionLost, RxlineError, TimedOut
from ._wire import Wire


class Link:
    """Sends lines, and hands each the answer that is its own: answers come in the order of the lines. Where one does not come in
    time the connection is ended."""

    def __init__(self, wire: Wire, timeout: Optional[float]) -> None:
        self._wire, self._timeout = wire, timeout
        self._unanswered: Deque[Tuple["asyncio.Future[bytes]", Optional[float]]] = deque()  # with the moment for which it is due
        self._fault: Optional[RxlineError] = None
        self._watching: Optional[asyncio.TimerHandle] = None
        self._reading = asyncio.ensure_future(self._read())

    @classmethod
    async def open(cls, path: Path, timeout: Optional[float]) -> "Link":
        """Connects. NoServer, TimedOut."""
        return cls(await Wire.open(path, moment_after(timeout)), timeout)

    @property
    def is_lost(self) -> bool:
        """Whether nothing more can be asked."""
        if self._fault is not None or self._wire.is_closing():
            return True
        return not self._unanswered and self._wire.is_cut()

    def send(self, lines: List[bytes]) -> "List[asyncio.Future[bytes]]":
        """Sends these; the answer to each is its future's, or that the connection was lost, or was not answered in time."""
        loop, due, is_lost = asyncio.get_running_loop(), moment_after(self._timeout), self.is_lost
        answers: "List[asyncio.Future[bytes]]" = [loop.create_future() for _ in lines]
        self._unanswered.extend((answer, due) for answer in answers)
        if is_lost:
            self._lose(ConnectionLost("the connection was ended"))
        elif lines:
            self._wire.write(b"".join(lines))
            self._watch()
        return answers

    def _watch(self) -> None:
        """Has it looked when the oldest answer is due."""
        due = self._unanswered[0][1] if self._unanswered else None
        if due is not None and self._watching is None:
            self._watching = asyncio.get_running_loop().call_later(due - time.monotonic(), self._look)

    def _look(self) -> None:
        self._watching = None
        due = self._unanswered[0][1] if self._unanswered else None
        if due is not None and due <= time.monotonic():
            self._lose(TimedOut("nothing came in time"))
        self._watch()

    async def _read(self) -> None:
        try:
            while True:
                line = await self._wire.line(None)
                answer = self._unanswered.popleft()[0] if self._unanswered else None
                if answer is not None and not answer.done():
                    answer.set_result(line)
        except RxlineError as fault:
            self._lose(fault)

    def _lose(self, fault: RxlineError) -> None:
        self._fault = self._fault or fault
        self._wire.close()
        if self._watching is not None:
            self._watching.cancel()
        while self._unanswered:
            answer, _ = self._unanswered.popleft()
            if not answer.done():
                answer.set_exception(self._fault)
                answer.exception()  # who stopped waiting for it need not be warned

    def close(self) -> None:
        """Ends it; what has no answer is lost."""
        self._lose(ConnectionLost("the client ended the connection"))
        self._reading.cancel()
