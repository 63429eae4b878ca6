"""Following a subject by the events of its server's HTTP socket, or through a proxy before it, and emitting to it.

    import rxline.events

    for note in rxline.events.subscribe("https://example.org", "s", rxline.latest(16)):
        if isinstance(note, rxline.Item):
            print(note.place, note.text)

    rxline.events.publish("https://example.org", "s", "hello")

What it tells is what `Client.subscribe` tells; an item has no port, and the server says itself which one it is.
"""

import os
from typing import Iterable, List, Optional, Tuple, Union
from urllib.parse import quote, urlencode

from ._account import Account
from ._connection import moment_after
from ._event_link import EventLink, asked, posted, posted_lines
from ._following import Following
from ._http import Address
from ._lines import Text, bytes_of, check_key, check_name
from .client import TIMEOUT
from .notes import Position
from .policy import BUFFER, Errors, Strategy

Where = Union[str, "os.PathLike[str]"]

MAX_WINDOW = 16  # items


def query_of(strategy: Strategy, errors: Errors, window: Optional[int], asks: bool) -> str:
    """The query of a request. ValueError."""
    if window is not None and not 1 <= window <= MAX_WINDOW:
        raise ValueError(f"a window is 1 to {MAX_WINDOW} items, not {window}")
    words = {"strategy": str(strategy), "errors": errors.value}
    if asks:
        words["credit"] = "asked"
    if asks or window is not None:
        words["window"] = str(window or 1)
    return urlencode(words, quote_via=quote)


class EventSubscription(Following[EventLink]):
    """The notes of one subject, over connections that end and servers that begin anew: `subscribe` makes one.

    It ends behind `Completed` or `Failed`, and once it is closed. `position` is how far it is, the last note that it handed out
    included: who keeps it once the note is worked on, and hands it to `subscribe` as `since`, goes on behind it.
    """

    def __init__(
        self,
        where: Where,
        subject: str,
        strategy: Strategy,
        errors: Errors,
        since: Optional[Position],
        *,
        window: Optional[int],
        asks: bool,
        timeout: Optional[float],
        connect_timeout: Optional[float],
        patience: Optional[float],
    ) -> None:
        check_name(subject)
        self._address, self._subject, self._asks = Address.of(os.fspath(where)), subject, asks
        self._query, self._account = query_of(strategy, errors, window, asks), Account(since)
        super().__init__(self._account, timeout=timeout, connect_timeout=connect_timeout, patience=patience)

    def _joined(self, ends: Optional[float]) -> EventLink:
        account = self._account
        account.comes()
        link = EventLink(self._address, self._address.request(self._subject, self._query, account.last), account.last, ends)
        account.is_over = link.has_ended
        try:
            while not account.has_joined and not account.is_over:
                account.hear(link.event(ends))
        except BaseException:
            link.close()
            raise
        return link

    def _hear_next(self, link: EventLink, ends: Optional[float]) -> None:
        account = self._account
        if self._asks and account.to_ask_for:
            if not asked(self._address, self._address.items(self._subject, account.observer, account.to_ask_for), ends):
                link.leave()
            account.to_ask_for = 0
        account.hear(link.event(ends))


def subscribe(
    where: Where,
    subject: str,
    strategy: Strategy = BUFFER,
    errors: Errors = Errors.DELAY,
    *,
    window: Optional[int] = None,
    asks: bool = False,
    since: Optional[Position] = None,
    timeout: Optional[float] = None,
    connect_timeout: Optional[float] = TIMEOUT,
    patience: Optional[float] = None,
) -> EventSubscription:
    """Follows a subject: once this returns it has joined. `where` is the path of the socket of HTTP, or the URL of a proxy before it,
    https://HOST/PATH, behind which `/subjects/` is. At most `window` items are on their way at a time. With `asks` no buffer on the way takes any ahead: one is
    asked for once the one before was worked on, or `window` before the first one. `timeout`, `connect_timeout` and
    `patience` are seconds, as those of `rxline.Client`; None for no end. Refused, NoServer, ConnectionLost, ProtocolError."""
    return EventSubscription(
        where,
        subject,
        strategy,
        errors,
        since,
        window=window,
        asks=asks,
        timeout=timeout,
        connect_timeout=connect_timeout,
        patience=patience,
    )


def emission_of(where: Where, subject: str, end: str, text: bytes, key: Optional[str]) -> Tuple[Address, bytes]:
    """Where it is to go, and what is sent there. ValueError."""
    check_name(subject)
    if key is not None:
        check_key(key)
    address = Address.of(os.fspath(where))
    return address, address.emission(subject, end, text, key)


def publish(where: Where, subject: str, text: Text, *, key: Optional[str] = None, timeout: Optional[float] = TIMEOUT) -> Position:
    """Emits a text, and returns where it stands: once this returns it was accepted. After ConnectionLost or TimedOut it may have been,
    or not: who follows the subject sees. With a `key`, 1 to 64 visible characters that name this text alone, it may be called again
    with the same one: a server that accepted it tells where it stands, and accepts it no second time, as long as it remembers that (it
    forgets when it starts anew). By a connection of its own each time: `rxline.Client` is for many. Refused, NoServer, ConnectionLost,
    ProtocolError, TimedOut."""
    return posted(*emission_of(where, subject, "", bytes_of(text), key), moment_after(timeout))


def lines_of(where: Where, subject: str, texts: Iterable[Text]) -> Tuple[Address, bytes]:
    """Where they are to go, and what is sent there. ValueError, TooLong."""
    return emission_of(where, subject, "?lines=1", b"".join(bytes_of(text) + b"\n" for text in texts), None)


def publish_lines(where: Where, subject: str, texts: Iterable[Text], *, timeout: Optional[float] = TIMEOUT) -> List[Position]:
    """Emits texts by one request, in their order, and returns where each stands. As `publish`; where one behind others is refused,
    NotAllPublished, whose `positions` tell where those before stand, and no other is emitted. TooLong also where they are more than
    256, or with the head of the request more than 8,192 bytes: then none is emitted."""
    return posted_lines(*lines_of(where, subject, texts), moment_after(timeout))


def complete(where: Where, subject: str, *, key: Optional[str] = None, timeout: Optional[float] = TIMEOUT) -> None:
    """Completes the subject, for good. As `publish`."""
    posted(*emission_of(where, subject, "/end", b"", key), moment_after(timeout))


def fail(where: Where, subject: str, text: Text, *, key: Optional[str] = None, timeout: Optional[float] = TIMEOUT) -> None:
    """Ends the subject by an error, for good. As `publish`."""
    posted(*emission_of(where, subject, "/fail", bytes_of(text), key), moment_after(timeout))
