"""A stream of Server-Sent Events, as the standard reads it (html.spec.whatwg.org)."""

import re
from dataclasses import dataclass
from typing import Iterator, List, Optional

MAX_LINE = 65536  # bytes; no line of a server is as long

_END = re.compile(rb"\r\n|\n|\r")
_BOM = b"\xef\xbb\xbf"


@dataclass(frozen=True)
class Event:
    """An event: its kind, its data, and the last id that was told, here or before."""

    kind: str
    data: bytes
    last: Optional[str]


class Stream:
    """Makes events of bytes, wherever these are cut."""

    def __init__(self, last: Optional[str]) -> None:
        self._last = last
        self._came = b""
        self._is_first = True
        self._kind, self._data = "", []  # type: str, List[bytes]

    def feed(self, data: bytes) -> Iterator[Event]:
        """The events that these bytes complete."""
        self._came += data
        if self._is_first and not self._skip_mark():
            return
        while True:
            end = _END.search(self._came)
            # A CR that came last may be the front of CRLF.
            if end is None or (end.group() == b"\r" and end.end() == len(self._came)):
                return
            line, self._came = self._came[: end.start()], self._came[end.end() :]
            event = self._take(line)
            if event is not None:
                yield event

    def _skip_mark(self) -> bool:
        """Whether what came first is known."""
        if len(self._came) < len(_BOM) and _BOM.startswith(self._came):
            return False
        self._came = self._came[len(_BOM) :] if self._came.startswith(_BOM) else self._came
        self._is_first = False
        return True

    def _take(self, line: bytes) -> Optional[Event]:
        if not line:
            return self._dispatch()
        name, _, value = line.partition(b":")
        value = value[1:] if value.startswith(b" ") else value
        if name == b"event":
            self._kind = value.decode("utf-8", "replace")
        elif name == b"data":
            self._data.append(value)
        elif name == b"id" and b"\0" not in value:
            self._last = value.decode("utf-8", "replace")
        return None

    def _dispatch(self) -> Optional[Event]:
        kind, data = self._kind or "message", self._data
        self._kind, self._data = "", []
        return Event(kind, b"\n".join(data), self._last) if data else None
