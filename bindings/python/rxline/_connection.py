"""One connection to a server, whose calls wait."""

import os
import select
import socket
import time
from typing import Optional, Tuple, Union

from ._lines import HELLO, check, check_joined, epoch_in, join_line
from .errors import ConnectionLost, NoServer, ProtocolError, TimedOut
from .policy import BUFFER, Errors

Path = Union[str, "os.PathLike[str]"]

PAUSE = 0.01  # seconds between two tries to connect where the server has no room yet
MAX_LINE = 4096  # bytes; no line of a server is as long


def began(path: Path) -> str:
    """Which server is at this path, by when its socket was made: a server makes it anew each time that it begins. NoServer."""
    try:
        file = os.stat(path)
    except OSError as fault:
        raise NoServer(str(fault)) from fault
    return f"{file.st_mtime_ns:x}.{file.st_ino:x}"


def connects(peer: socket.socket, path: Path) -> bool:
    """Whether this socket, which does not wait, is connected now; else the server has no room for it at the moment. NoServer."""
    try:
        peer.connect(os.fspath(path))
        return True
    except BlockingIOError:
        return False
    except OSError as fault:
        raise NoServer(f"{os.fspath(path)}: {fault}") from fault


def is_readable(peer: socket.socket) -> bool:
    """Whether something came, which may be the end."""
    looked = select.poll()  # which, unlike select, takes a descriptor of any number
    try:
        looked.register(peer, select.POLLIN)
    except (OSError, ValueError):
        return True
    return bool(looked.poll(0))


def moment_after(seconds: Optional[float]) -> Optional[float]:
    """The moment so many seconds from now; None for never."""
    return None if seconds is None else time.monotonic() + seconds


class Connection:
    """Lines both ways. A moment `ends` is when it stops waiting; None for never."""

    def __init__(self, path: Path, ends: Optional[float]) -> None:
        """NoServer, TimedOut."""
        self._peer = socket.socket(socket.AF_UNIX)
        self._came = bytearray()
        self._looked = 0  # so many bytes of what came have no LF
        try:
            self._peer.setblocking(False)
            while not connects(self._peer, path):
                if ends is not None and time.monotonic() > ends:
                    raise TimedOut(f"no connection at {path}")
                time.sleep(PAUSE)
        except BaseException:
            self._peer.close()
            raise

    def _wait_until(self, ends: Optional[float]) -> None:
        left = None if ends is None else ends - time.monotonic()
        if left is not None and left <= 0:
            raise socket.timeout()
        self._peer.settimeout(left)

    def send(self, lines: bytes, ends: Optional[float]) -> None:
        """Sends these. ConnectionLost, TimedOut, of which either may leave a front of them sent."""
        try:
            self._wait_until(ends)
            self._peer.sendall(lines)
        except socket.timeout as fault:
            raise TimedOut("the server takes nothing") from fault
        except OSError as fault:
            raise ConnectionLost(str(fault)) from fault

    def line(self, ends: Optional[float]) -> bytes:
        """The next line, without its LF. ConnectionLost; TimedOut, after which it can be asked for again."""
        while True:
            end = self._came.find(b"\n", self._looked)
            if end >= 0:
                line = bytes(self._came[:end])
                del self._came[: end + 1]
                self._looked = 0
                return line
            self._looked = len(self._came)
            if self._looked > MAX_LINE:
                raise ProtocolError("a line without an end")
            self._came += self._receive(ends)

    def _receive(self, ends: Optional[float]) -> bytes:
        try:
            self._wait_until(ends)
            came = self._peer.recv(65536)
        except socket.timeout as fault:
            raise TimedOut("nothing came in time") from fault
        except OSError as fault:
            raise ConnectionLost(str(fault)) from fault
        if not came:
            raise ConnectionLost("the server ended the connection")
        return came

    def is_cut(self) -> bool:
        """Whether it has ended, as far as can be told without waiting, where no answer is to come."""
        return is_readable(self._peer)

    def join(self, line: bytes, ends: Optional[float]) -> None:
        """Makes it an observer's, by this `SUB`. Refused, ConnectionLost, TimedOut."""
        self.send(HELLO + line, ends)
        check(self.line(ends))
        check_joined(self.line(ends))

    def shut(self) -> None:
        """Ends it for both sides: who waits for a line of it, in another thread too, is told that it is lost."""
        try:
            self._peer.shutdown(socket.SHUT_RDWR)
        except OSError:
            pass  # it had ended already

    def close(self) -> None:
        self._peer.close()


def epoch_of(path: Path, subject: Optional[str], ends: Optional[float]) -> str:
    """Which server is at this path: the item that this subject tells first, where there is one, else when it began."""
    if subject is None:
        return began(path)
    connection = Connection(path, ends)
    try:
        connection.join(join_line(subject, BUFFER, Errors.DELAY), ends)
        return epoch_in(connection.line(ends))
    finally:
        connection.close()


def joined(path: Path, line: bytes, epoch_subject: Optional[str], ends: Optional[float]) -> Tuple[Connection, str]:
    """A connection that this `SUB` made an observer's, and the epoch of its server. Refused, NoServer, ConnectionLost, TimedOut."""
    epoch = epoch_of(path, epoch_subject, ends)
    connection = Connection(path, ends)
    try:
        connection.join(line, ends)
        if epoch_of(path, epoch_subject, ends) != epoch:
            raise ConnectionLost("another server began meanwhile")
    except BaseException:
        connection.close()
        raise
    return connection, epoch
