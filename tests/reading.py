"""Peers of a server's face: readers of events and who posts, for the programs beside this one. A stream is read by the standard's rules
(html.spec.whatwg.org, "Server-sent events")."""

import json
import re
import time

from serving import MOST, Peer, want

JSON = "application/json"

HEAD = """HTTP/1.1 200 OK
Content-Type: text/event-stream
Cache-Control: no-store, no-transform
X-Accel-Buffering: no
Content-Encoding: identity
Vary: Accept, Origin
Connection: close"""


class Session(Peer):
    """A session of lines."""

    def emit(self, texts, subject="s"):
        """Emits these, and waits until each is acknowledged. One CR before the LF is no part of a line."""
        self.send(b"".join(b"PUB " + subject.encode() + b" " + text + b"\r\n" for text in texts))
        want("answers", [self.line() for _ in texts], [b"OK"] * len(texts))

    def end(self, subject="s"):
        self.ask(b"END " + subject.encode(), b"OK")


class Connection(Peer):
    """A connection to the face. One that is closed while bytes of its peer stand unread is reset, behind what was written to it."""

    def more(self):
        try:
            return super().more()
        except ConnectionResetError:
            return True


class Request(Connection):
    """A request and its answer."""

    def __init__(self, path, target, fields=(), least=None, method="GET", body=b""):
        super().__init__(path, least)
        lines = [f"{method} {target} HTTP/1.1", "Host: x", *fields]
        self.send("".join(f"{line}\r\n" for line in lines).encode() + b"\r\n" + body)

    def head(self):
        """Returns the head of the answer; None where there is none."""
        while b"\r\n\r\n" not in self.rest:
            if self.more():
                want("an end without an answer", self.rest, b"")
                return None
        head, self.rest = self.rest.split(b"\r\n\r\n", 1)
        return head.decode("ascii").replace("\r\n", "\n")

    def body(self):
        """Reads the rest."""
        while not self.more():
            pass
        return self.rest

    def answer(self):
        """Returns the status, the fields and the body."""
        head = self.head()
        if head is None:
            return None, {}, b""
        first, *lines = head.split("\n")
        return int(first.split(" ")[1]), dict(line.split(": ", 1) for line in lines), self.body()


class Reader(Request):
    """A reader of events, by the standard's rules."""

    def __init__(self, face, target, last=None, least=None):
        self.last = last
        super().__init__(face.http, f"/subjects/{target}", [] if last is None else [f"Last-Event-ID: {last}"], least)

    def begin(self):
        """Reads the head of the answer."""
        want("the head of the answer", self.head(), HEAD)
        self.is_over = False
        return self

    def field_line(self):
        """Returns the next line without its end; None where the stream is cut in it, or ends."""
        while True:
            match = re.search(rb"\r\n|\n|\r(?!\Z)", self.rest)
            if match:
                line, self.rest = self.rest[: match.start()], self.rest[match.end() :]
                return line
            if self.is_over or self.more():
                self.is_over = True
                return None

    def event(self):
        """Returns the next event, as its kind, its text and the last id that was told; None at the end of the stream."""
        kind, data, told = "message", [], self.last
        while True:
            line = self.field_line()
            if line is None:
                return None
            if not line:
                self.last = told
                if data:
                    return kind, b"\n".join(data), told
                kind = "message"
                continue
            name, _, value = line.partition(b":")
            value = value[1:] if value.startswith(b" ") else value
            if name == b"event":
                kind = value.decode("ascii")
            elif name == b"data":
                data.append(value)
            elif name == b"id":
                told = value.decode("ascii")

    def hears(self, *wanted):
        """These events are to come next, each as its kind, its text and the last id."""
        for one in wanted:
            want("an event", self.event(), one)

    def hears_last(self, *wanted):
        self.hears(*wanted)
        want("what is told behind that", self.event(), None)


def numbers(count, first=0):
    return [str(n).encode() for n in range(first, first + count)]


def nexts(face, texts, first=0):
    return [("next", text, f"{face.epoch}-{first + at}") for at, text in enumerate(texts)]


def joined(face, who, place=""):
    return "joined", f"{face.epoch}-{who}".encode(), f"{face.epoch}-{place}"


def until(what, act):
    """Calls it until it says something."""
    ends = time.monotonic() + MOST
    while True:
        found = act()
        if found:
            return found
        want(f"{what} within {MOST} s", time.monotonic() < ends, True)
        time.sleep(0.02)


def posted(face, target, body=b"", fields=()):
    """Returns the status and what is said to a POST."""
    fields = [f"Content-Length: {len(body)}", *fields]
    with Request(face.http, target, fields, method="POST", body=body) as request:
        status, told, said = request.answer()
        want("the type of what is said", (told["Content-Type"], int(told["Content-Length"])), (JSON, len(said)))
        return status, json.loads(said)


def seen(face, target, kind):
    """Returns what is told to who looks."""
    with Request(face.http, target) as request:
        status, told, body = request.answer()
        want(f"how {target} is answered", (status, told["Content-Type"], int(told["Content-Length"])), (200, kind, len(body)))
        return body.decode("ascii")
