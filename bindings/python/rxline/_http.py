"""An answer of HTTP/1.1 whose body goes to the end of the connection, or comes in chunks from a proxy; and where to ask for it."""

import json
from dataclasses import dataclass
from typing import Dict, List, Optional, Sequence, Type
from urllib.parse import urlsplit

from .errors import (
    ConnectionLost,
    Ended,
    Full,
    NoSuchSubject,
    NotAllPublished,
    OutOfMemory,
    ProtocolError,
    Refused,
    RxlineError,
    Spent,
    SubjectGone,
    TooLong,
)
from .notes import Position

MAX_HEAD = 65536  # bytes
MAX_BODY = 65536  # bytes, of an answer that refuses


@dataclass(frozen=True)
class Address:
    """Where a face is: at a Unix socket, or at a host and a port, where it may have to be asked in a TLS of its own."""

    path: Optional[str]
    host: str
    port: int
    is_secure: bool
    prefix: str

    @classmethod
    def of(cls, where: str) -> "Address":
        """The address that a path, or a URL of http or https, names. ValueError."""
        if not where.startswith(("http://", "https://")):
            return cls(where, "localhost", 0, False, "")
        url = urlsplit(where)
        if not url.hostname or url.query or url.fragment:
            raise ValueError(f"{where!r} is no address")
        is_secure = url.scheme == "https"
        return cls(None, url.hostname, url.port or (443 if is_secure else 80), is_secure, url.path.rstrip("/"))

    def request(self, subject: str, query: str, last: Optional[str]) -> bytes:
        """What asks for the events of a subject, from behind what its reader knows."""
        fields = ["Accept: text/event-stream"] if last is None else ["Accept: text/event-stream", f"Last-Event-ID: {last}"]
        return self._head("GET", f"{subject}?{query}", fields)

    def emission(self, subject: str, end: str, text: bytes, key: Optional[str] = None) -> bytes:
        """What emits a text, or has the subject end so; once by this key, if there is one."""
        fields = [f"Content-Length: {len(text)}"]
        if key is not None:
            fields.append(f"Idempotency-Key: {key}")
        return self._head("POST", f"{subject}{end}", fields) + text

    def items(self, subject: str, observer: str, count: int) -> bytes:
        """What asks for so many items more for an observer."""
        return self._head("POST", f"{subject}/observers/{observer}?request={count}", ["Content-Length: 0"])

    def _head(self, method: str, target: str, fields: Sequence[str]) -> bytes:
        host = f"[{self.host}]" if ":" in self.host else self.host
        asked = host if self.path is not None or self.port in (80, 443) else f"{host}:{self.port}"
        lines = [f"{method} {self.prefix}/subjects/{target} HTTP/1.1", f"Host: {asked}", *fields, ""]
        return "".join(f"{line}\r\n" for line in lines).encode("ascii")


class Answer:
    """An answer as it comes: its status and its fields once its head is whole, and its body piece by piece."""

    def __init__(self) -> None:
        self.status: Optional[int] = None
        self.fields: Dict[str, str] = {}
        self.is_over = False
        self._came = bytearray()
        self._is_chunked = False
        self._left: Optional[int] = None  # so many bytes of the chunk, or of the body, are still to come; None for all there are

    def feed(self, data: bytes) -> bytes:
        """What of the body is known by these bytes more. ProtocolError."""
        self._came += data
        if self.status is None and not self._has_head():
            return b""
        return self._chunks() if self._is_chunked else self._plain()

    def end(self) -> None:
        """The connection has ended. ConnectionLost, where the answer had not."""
        if self.status is None or self._is_chunked or self._left:
            raise ConnectionLost("the server ended the connection")
        self.is_over = True

    def _has_head(self) -> bool:
        end = self._came.find(b"\r\n\r\n")
        if end < 0:
            if len(self._came) > MAX_HEAD:
                raise ProtocolError("a head without an end")
            return False
        first, *lines = bytes(self._came[:end]).decode("latin-1").split("\r\n")
        del self._came[: end + 4]
        words = first.split(" ")
        if not words[0].startswith("HTTP/1.") or len(words) < 2 or not words[1].isdecimal():
            raise ProtocolError(f"an answer {first!r}")
        self.status = int(words[1])
        for name, _, value in (line.partition(":") for line in lines):
            self.fields[name.lower()] = value.strip()
        self._is_chunked = self.fields.get("transfer-encoding", "").lower().endswith("chunked")
        length = self.fields.get("content-length", "")
        self._left = 0 if self.status in (204, 304) or self._is_chunked else int(length) if length.isdecimal() else None
        return True

    def _plain(self) -> bytes:
        body = bytes(self._came if self._left is None else self._came[: self._left])
        del self._came[: len(body)]
        if self._left is not None:
            self._left -= len(body)
            self.is_over = self._left == 0
        return body

    def _chunks(self) -> bytes:
        body = bytearray()
        while self._came and not self.is_over:
            if self._left:
                part = self._came[: self._left]
                del self._came[: len(part)]
                self._left -= len(part)
                body += part
                continue
            end = self._came.find(b"\r\n", 2 if self._came.startswith(b"\r\n") else 0)
            if end < 0:
                break
            word = bytes(self._came[:end]).strip().split(b";")[0]
            del self._came[: end + 2]
            try:
                self._left = int(word, 16)
            except ValueError as fault:
                raise ProtocolError(f"a chunk of {word!r} bytes") from fault
            self.is_over = self._left == 0
        return bytes(body)


REFUSALS: Dict[str, Type[RxlineError]] = {
    "subject": NoSuchSubject,
    "observer": ConnectionLost,  # it has left, so who reads has to come again
    "long": TooLong,
    "ended": Ended,
    "full": Full,
    "spent": Spent,
    "gone": SubjectGone,
    "memory": OutOfMemory,
}


def position_in(status: Optional[int], body: bytes) -> Position:
    """Where a text stands, by the answer to its emission; behind no item where that ended its subject. Refused, ConnectionLost,
    ProtocolError."""
    if status != 200:
        raise refusal(status or 0, body)
    try:
        said = json.loads(body)
        return Position(str(said["epoch"]), int(said.get("place", -1)))
    except (ValueError, TypeError, KeyError) as fault:
        raise ProtocolError(f"an answer {body[:100]!r}") from fault


def positions_in(status: Optional[int], body: bytes) -> List[Position]:
    """Where texts stand, by the answer to their emission as lines. NotAllPublished, where one behind others was refused; Refused,
    ConnectionLost, ProtocolError."""
    try:
        said = json.loads(body)
        positions = [Position(str(said["epoch"]), int(place)) for place in said["places"]]
    except (ValueError, TypeError, KeyError) as fault:
        raise refusal(status or 0, body) if status != 200 else ProtocolError(f"an answer {body[:100]!r}") from fault
    if status != 200:
        cause, at = refusal(status or 0, body), len(positions)
        refused: Dict[int, Refused] = {at: cause} if isinstance(cause, Refused) else {}
        raise NotAllPublished(at, refused, range(at + len(refused), at + 1), positions) from cause
    return positions


def refusal(status: int, body: bytes) -> RxlineError:
    """What an answer means that is no success."""
    try:
        word = str(json.loads(body)["error"])
    except (ValueError, TypeError, KeyError):
        word = ""
    if word in REFUSALS:
        return REFUSALS[word]()
    if status in (502, 503, 504):
        return ConnectionLost(f"a proxy answers {status}")
    return ProtocolError(f"an answer {status} {word}".rstrip())
