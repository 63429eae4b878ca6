"""One connection of HTTP, by which events come or a text is emitted, whose calls are awaited."""

import asyncio
import ssl
import time
from collections import deque
from typing import Deque, List, Optional, Tuple

from .._connection import moment_after
from .._event_link import LEAVING
from .._http import MAX_BODY, Address, Answer, position_in, positions_in, refusal
from .._sse import Event, Stream
from ..errors import ConnectionLost, NoServer, TimedOut
from ..notes import Position
from ._wire import connected as connected_at

Halves = Tuple[asyncio.StreamReader, asyncio.StreamWriter]


def left_until(ends: Optional[float]) -> Optional[float]:
    """The seconds until this moment; None for ever."""
    return None if ends is None else max(0, ends - time.monotonic())


async def connected(address: Address, ends: Optional[float]) -> Halves:
    """The halves of a connection to this address. NoServer, TimedOut."""
    if address.path is not None:
        return await asyncio.open_unix_connection(sock=await connected_at(address.path, ends))
    context = ssl.create_default_context() if address.is_secure else None
    opening = asyncio.open_connection(address.host, address.port, ssl=context)
    try:
        return await asyncio.wait_for(opening, left_until(ends))
    except asyncio.TimeoutError as fault:
        raise TimedOut("no connection in time") from fault
    except OSError as fault:
        raise NoServer(str(fault)) from fault


class HttpWire:
    """A request, and its answer as it comes. A moment `ends` is when it stops waiting; None for never."""

    def __init__(self, halves: Halves) -> None:
        self._reader, self._writer = halves
        self._answer = Answer()

    async def ask(self, request: bytes, ends: Optional[float]) -> bytes:
        """Sends it, and returns what came with the head of its answer. ConnectionLost, ProtocolError, TimedOut."""
        self._writer.write(request)
        said = b""
        while self._answer.status is None:
            said = await self._receive(ends)
        return said

    async def whole(self, request: bytes, ends: Optional[float]) -> Tuple[Optional[int], bytes]:
        """The status and the body of the answer to this request. ConnectionLost, ProtocolError, TimedOut."""
        said = await self.ask(request, ends)
        while not self._answer.is_over:
            said += await self._receive(ends)
        return self._answer.status, said

    async def carry_out(self, request: bytes, ends: Optional[float]) -> None:
        """Has done what this request asks for, of which there is nothing to tell. Refused, ConnectionLost, ProtocolError, TimedOut."""
        said = await self.ask(request, ends)
        if self._answer.status != 204:
            raise refusal(self._answer.status or 0, said + await self._rest(ends))

    async def _rest(self, ends: Optional[float]) -> bytes:
        """What an answer that refuses says, as far as it comes."""
        said = bytearray()
        most = moment_after(1)
        try:
            while not self._answer.is_over and len(said) < MAX_BODY:
                said += await self._receive(most if ends is None else min(ends, most or ends))
        except (ConnectionLost, TimedOut):
            pass
        return bytes(said)

    async def _receive(self, ends: Optional[float]) -> bytes:
        """What of the body came by one read."""
        if self._answer.is_over:
            raise ConnectionLost("the server ended the stream")
        try:
            came = await asyncio.wait_for(self._reader.read(65536), left_until(ends))
        except asyncio.TimeoutError as fault:
            raise TimedOut("nothing came in time") from fault
        except OSError as fault:
            raise ConnectionLost(str(fault)) from fault
        if not came:
            self._answer.end()
            raise ConnectionLost("the server ended the stream")
        return self._answer.feed(came)

    def close(self) -> None:
        """Ends it; who awaits an event is told that it is lost."""
        self._writer.close()


class EventWire(HttpWire):
    """The events of a subject."""

    def __init__(self, halves: Halves, last: Optional[str]) -> None:
        super().__init__(halves)
        self._stream = Stream(last)
        self._events: Deque[Event] = deque()
        self._leaves: Optional[float] = None
        self.has_ended = False

    @classmethod
    async def open(cls, address: Address, request: bytes, last: Optional[str], ends: Optional[float]) -> "EventWire":
        """Asks for them. Refused, NoServer, ConnectionLost, ProtocolError, TimedOut."""
        wire = cls(await connected(address, ends), last)
        try:
            await wire._begin(request, ends)
        except BaseException:
            wire.close()
            raise
        return wire

    async def _begin(self, request: bytes, ends: Optional[float]) -> None:
        said, status = await self.ask(request, ends), self._answer.status
        self.has_ended = status == 204
        if status not in (200, 204):
            raise refusal(status or 0, said + await self._rest(ends))
        self._events.extend(self._stream.feed(said))

    def leave(self) -> None:
        """Nobody is there who could be asked for more: what was told before that is still heard."""
        self._leaves = self._leaves or moment_after(LEAVING)

    async def event(self, ends: Optional[float]) -> Event:
        """The next event. ConnectionLost; TimedOut, after which it can be asked for again. One task at a time."""
        while not self._events:
            self._events.extend(self._stream.feed(await self._receive_by(ends)))
        return self._events.popleft()

    async def _receive_by(self, ends: Optional[float]) -> bytes:
        leaves = self._leaves
        if leaves is None or (ends is not None and ends < leaves):
            return await self._receive(ends)
        try:
            return await self._receive(leaves)
        except TimedOut as fault:
            raise ConnectionLost("its observer has left") from fault


async def answered(address: Address, request: bytes, ends: Optional[float]) -> Tuple[Optional[int], bytes]:
    """The status and the body of the answer to this request. NoServer, ConnectionLost, ProtocolError, TimedOut."""
    wire = HttpWire(await connected(address, ends))
    try:
        return await wire.whole(request, ends)
    finally:
        wire.close()


async def posted(address: Address, request: bytes, ends: Optional[float]) -> Position:
    """Emits by this request. Refused, NoServer, ConnectionLost, ProtocolError, TimedOut."""
    return position_in(*await answered(address, request, ends))


async def posted_lines(address: Address, request: bytes, ends: Optional[float]) -> List[Position]:
    """Emits texts by this request. NotAllPublished, Refused, NoServer, ConnectionLost, ProtocolError, TimedOut."""
    return positions_in(*await answered(address, request, ends))


async def asked(address: Address, request: bytes, ends: Optional[float]) -> bool:
    """Asks for items by this request, and returns whether somebody was there who could be asked. Refused, ProtocolError, TimedOut."""
    try:
        wire = HttpWire(await connected(address, ends))
    except NoServer:
        return False
    try:
        await wire.carry_out(request, ends)
    except ConnectionLost:
        return False
    finally:
        wire.close()
    return True
