"""One connection of HTTP, by which events come or a text is emitted, whose calls wait."""

import socket
import ssl
import time
from collections import deque
from typing import Deque, List, Optional, Tuple

from ._connection import PAUSE, connects, moment_after
from ._http import MAX_BODY, Address, Answer, position_in, positions_in, refusal
from ._sse import Event, Stream
from .errors import ConnectionLost, NoServer, TimedOut
from .notes import Position

# How long who asked for items in vain goes on to hear a stream, in seconds: what its server told before comes by then, and where
# another server took the path while the first one lives, nothing ends the stream.
LEAVING = 5.0


def connected(address: Address, ends: Optional[float]) -> socket.socket:
    """A socket to this address. NoServer, TimedOut."""
    if address.path is not None:
        return _at_path(address.path, ends)
    left = None if ends is None else max(0.001, ends - time.monotonic())
    try:
        peer = socket.create_connection((address.host, address.port), left)
        if not address.is_secure:
            return peer
        return ssl.create_default_context().wrap_socket(peer, server_hostname=address.host)
    except socket.timeout as fault:
        raise TimedOut(f"no connection to {address.host}") from fault
    except OSError as fault:
        raise NoServer(f"{address.host}:{address.port}: {fault}") from fault


def _at_path(path: str, ends: Optional[float]) -> socket.socket:
    peer = socket.socket(socket.AF_UNIX)
    try:
        peer.setblocking(False)
        while not connects(peer, path):
            if ends is not None and time.monotonic() > ends:
                raise TimedOut(f"no connection at {path}")
            time.sleep(PAUSE)
    except BaseException:
        peer.close()
        raise
    return peer


class HttpLink:
    """A request, and its answer as it comes. A moment `ends` is when it stops waiting; None for never."""

    def __init__(self, address: Address, ends: Optional[float]) -> None:
        """NoServer, TimedOut."""
        self._peer, self._answer = connected(address, ends), Answer()

    def ask(self, request: bytes, ends: Optional[float]) -> bytes:
        """Sends it, and returns what came with the head of its answer. ConnectionLost, ProtocolError, TimedOut."""
        self._send(request, ends)
        said = b""
        while self._answer.status is None:
            said = self._receive(ends)
        return said

    def whole(self, request: bytes, ends: Optional[float]) -> Tuple[Optional[int], bytes]:
        """The status and the body of the answer to this request. ConnectionLost, ProtocolError, TimedOut."""
        said = self.ask(request, ends)
        while not self._answer.is_over:
            said += self._receive(ends)
        return self._answer.status, said

    def carry_out(self, request: bytes, ends: Optional[float]) -> None:
        """Has done what this request asks for, of which there is nothing to tell. Refused, ConnectionLost, ProtocolError, TimedOut."""
        said = self.ask(request, ends)
        if self._answer.status != 204:
            raise refusal(self._answer.status or 0, said + self._rest(ends))

    def _rest(self, ends: Optional[float]) -> bytes:
        """What an answer that refuses says, as far as it comes."""
        said = bytearray()
        most = moment_after(1)
        try:
            while not self._answer.is_over and len(said) < MAX_BODY:
                said += self._receive(most if ends is None else min(ends, most or ends))
        except (ConnectionLost, TimedOut):
            pass
        return bytes(said)

    def _wait_until(self, ends: Optional[float]) -> None:
        left = None if ends is None else ends - time.monotonic()
        if left is not None and left <= 0:
            raise TimedOut("nothing came in time")
        self._peer.settimeout(left)

    def _send(self, request: bytes, ends: Optional[float]) -> None:
        try:
            self._wait_until(ends)
            self._peer.sendall(request)
        except socket.timeout as fault:
            raise TimedOut("the server takes nothing") from fault
        except OSError as fault:
            raise ConnectionLost(str(fault)) from fault

    def _receive(self, ends: Optional[float]) -> bytes:
        """What of the body came by one read."""
        if self._answer.is_over:
            raise ConnectionLost("the server ended the stream")
        self._wait_until(ends)
        try:
            came = self._peer.recv(65536)
        except socket.timeout as fault:
            raise TimedOut("nothing came in time") from fault
        except OSError as fault:
            raise ConnectionLost(str(fault)) from fault
        if not came:
            self._answer.end()
            raise ConnectionLost("the server ended the stream")
        return self._answer.feed(came)

    def shut(self) -> None:
        """Ends it for both sides: who waits for an event of it, in another thread too, is told that it is lost."""
        try:
            self._peer.shutdown(socket.SHUT_RDWR)
        except OSError:
            pass  # it had ended already

    def close(self) -> None:
        self._peer.close()


class EventLink(HttpLink):
    """The events of a subject."""

    def __init__(self, address: Address, request: bytes, last: Optional[str], ends: Optional[float]) -> None:
        """Asks for them. Refused, NoServer, ConnectionLost, ProtocolError, TimedOut."""
        super().__init__(address, ends)
        self._stream, self._events = Stream(last), deque()  # type: Stream, Deque[Event]
        self._leaves: Optional[float] = None
        try:
            said, status = self.ask(request, ends), self._answer.status
            self.has_ended = status == 204
            if status not in (200, 204):
                raise refusal(status or 0, said + self._rest(ends))
            self._events.extend(self._stream.feed(said))
        except BaseException:
            self.close()
            raise

    def leave(self) -> None:
        """Nobody is there who could be asked for more: what was told before that is still heard."""
        self._leaves = self._leaves or moment_after(LEAVING)

    def event(self, ends: Optional[float]) -> Event:
        """The next event. ConnectionLost; TimedOut, after which it can be asked for again."""
        while not self._events:
            self._events.extend(self._stream.feed(self._receive_by(ends)))
        return self._events.popleft()

    def _receive_by(self, ends: Optional[float]) -> bytes:
        leaves = self._leaves
        if leaves is None or (ends is not None and ends < leaves):
            return self._receive(ends)
        try:
            return self._receive(leaves)
        except TimedOut as fault:
            raise ConnectionLost("its observer has left") from fault


def answered(address: Address, request: bytes, ends: Optional[float]) -> Tuple[Optional[int], bytes]:
    """The status and the body of the answer to this request. NoServer, ConnectionLost, ProtocolError, TimedOut."""
    link = HttpLink(address, ends)
    try:
        return link.whole(request, ends)
    finally:
        link.close()


def posted(address: Address, request: bytes, ends: Optional[float]) -> Position:
    """Emits by this request. Refused, NoServer, ConnectionLost, ProtocolError, TimedOut."""
    return position_in(*answered(address, request, ends))


def posted_lines(address: Address, request: bytes, ends: Optional[float]) -> List[Position]:
    """Emits texts by this request. NotAllPublished, Refused, NoServer, ConnectionLost, ProtocolError, TimedOut."""
    return positions_in(*answered(address, request, ends))


def asked(address: Address, request: bytes, ends: Optional[float]) -> bool:
    """Asks for items by this request, and returns whether somebody was there who could be asked. Refused, ProtocolError, TimedOut."""
    try:
        link = HttpLink(address, ends)
    except NoServer:
        return False
    try:
        link.carry_out(request, ends)
    except ConnectionLost:
        return False
    finally:
        link.close()
    return True
