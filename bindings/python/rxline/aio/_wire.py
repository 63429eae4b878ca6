"""One connection to a server, whose calls are awaited."""

import asyncio
import socket
import time
from collections import deque
from typing import Deque, Optional, Tuple, Type, cast

from .._connection import MAX_LINE, PAUSE, Path, began, connects, is_readable
from .._lines import HELLO, check, check_joined, epoch_in, join_line
from ..errors import ConnectionLost, ProtocolError, RxlineError, TimedOut
from ..policy import BUFFER, Errors

MANY_LINES = 64  # With as many it reads no more until half of them are taken, so that a server notices who is slow.


async def connected(path: Path, ends: Optional[float]) -> socket.socket:
    """A socket that is connected to the server at this path, once that has room for it. NoServer, TimedOut."""
    peer = socket.socket(socket.AF_UNIX)
    try:
        peer.setblocking(False)
        while not connects(peer, path):
            if ends is not None and time.monotonic() > ends:
                raise TimedOut(f"no connection at {path}")
            await asyncio.sleep(PAUSE)
    except BaseException:
        peer.close()
        raise
    return peer


class Wire(asyncio.Protocol):
    """Lines both ways. A moment `ends` is when it stops waiting; None for never."""

    def __init__(self) -> None:
        self._transport: Optional[asyncio.Transport] = None
        self._rest = b""
        self._lines: Deque[bytes] = deque()
        self._is_paused = False
        self._fault: Optional[Tuple[Type[RxlineError], str]] = None
        self._waiter: Optional["asyncio.Future[None]"] = None

    @classmethod
    async def open(cls, path: Path, ends: Optional[float]) -> "Wire":
        """Connects. NoServer, TimedOut."""
        wire, peer = cls(), await connected(path, ends)
        try:
            await asyncio.get_running_loop().create_unix_connection(lambda: wire, sock=peer)
        except BaseException:
            peer.close()
            raise
        return wire

    def connection_made(self, transport: asyncio.BaseTransport) -> None:
        self._transport = cast(asyncio.Transport, transport)

    def data_received(self, data: bytes) -> None:
        *lines, self._rest = (self._rest + data).split(b"\n")
        self._lines.extend(lines)
        if len(self._rest) > MAX_LINE:
            self._end(ProtocolError, "a line without an end")
            self.close()
        elif len(self._lines) >= MANY_LINES and self._transport is not None:
            self._transport.pause_reading()
            self._is_paused = True
        self._wake()

    def connection_lost(self, fault: Optional[Exception]) -> None:
        self._end(ConnectionLost, str(fault) if fault is not None else "the connection was ended")

    def _end(self, kind: Type[RxlineError], why: str) -> None:
        self._fault = self._fault or (kind, why)
        self._wake()

    def _wake(self) -> None:
        if self._waiter is not None and not self._waiter.done():
            self._waiter.set_result(None)

    def write(self, lines: bytes) -> None:
        """Has these sent, once what was written before is."""
        if self._transport is not None:
            self._transport.write(lines)

    def is_closing(self) -> bool:
        """Whether nothing more can be written."""
        return self._transport is None or self._transport.is_closing()

    def is_cut(self) -> bool:
        """Whether it has ended, as far as can be told without waiting, where no answer is to come."""
        if self._transport is None or self._fault is not None or self._lines:
            return True
        return is_readable(self._transport.get_extra_info("socket"))

    async def line(self, ends: Optional[float]) -> bytes:
        """The next line, without its LF. ConnectionLost; TimedOut, after which it can be asked for again. One task at a time."""
        while not self._lines:
            if self._fault is not None:
                kind, why = self._fault
                raise kind(why)
            self._waiter = asyncio.get_running_loop().create_future()
            try:
                await asyncio.wait_for(self._waiter, None if ends is None else max(0, ends - time.monotonic()))
            except asyncio.TimeoutError as fault:
                raise TimedOut("nothing came in time") from fault
        if self._is_paused and self._transport is not None and len(self._lines) <= MANY_LINES // 2:
            self._transport.resume_reading()
            self._is_paused = False
        return self._lines.popleft()

    async def join(self, line: bytes, ends: Optional[float]) -> None:
        """Makes it an observer's, by this `SUB`. Refused, ConnectionLost, TimedOut."""
        self.write(HELLO + line)
        check(await self.line(ends))
        check_joined(await self.line(ends))

    def close(self) -> None:
        """Ends it; who awaits a line is told that it is lost."""
        if self._transport is not None:
            self._transport.close()


async def epoch_of(path: Path, subject: Optional[str], ends: Optional[float]) -> str:
    """Which server is at this path: the item that this subject tells first, where there is one, else when it began."""
    if subject is None:
        return began(path)
    wire = await Wire.open(path, ends)
    try:
        await wire.join(join_line(subject, BUFFER, Errors.DELAY), ends)
        return epoch_in(await wire.line(ends))
    finally:
        wire.close()


async def joined(path: Path, line: bytes, epoch_subject: Optional[str], ends: Optional[float]) -> Tuple[Wire, str]:
    """A connection that this `SUB` made an observer's, and the epoch of its server. Refused, NoServer, ConnectionLost, TimedOut."""
    epoch = await epoch_of(path, epoch_subject, ends)
    wire = await Wire.open(path, ends)
    try:
        await wire.join(line, ends)
        if await epoch_of(path, epoch_subject, ends) != epoch:
            raise ConnectionLost("another server began meanwhile")
    except BaseException:
        wire.close()
        raise
    return wire, epoch
