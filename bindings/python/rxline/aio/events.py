"""Following a subject by the events of its server's HTTP socket, or through a proxy before it, and emitting to it, by asyncio.

    async for note in await rxline.aio.events.subscribe("https://example.org", "s"):
        ...

    await rxline.aio.events.publish("https://example.org", "s", "hello")
"""

import os
from typing import Iterable, List, Optional

from .._account import Account
from .._connection import moment_after
from .._http import Address
from .._lines import Text, bytes_of, check_name
from ..client import TIMEOUT
from ..events import Where, emission_of, lines_of, query_of
from ..notes import Position
from ..policy import BUFFER, Errors, Strategy
from ._event_wire import EventWire, asked, posted, posted_lines
from ._following import Following


class EventSubscription(Following[EventWire]):
    """The notes of one subject, as `rxline.events.EventSubscription`. One task asks for notes at a time; another may close it."""

    def __init__(
        self,
        where: Where,
        subject: str,
        strategy: Strategy,
        errors: Errors,
        since: Optional[Position],
        *,
        window: Optional[int],
        asks: bool,
        timeout: Optional[float],
        connect_timeout: Optional[float],
        patience: Optional[float],
    ) -> None:
        check_name(subject)
        self._address, self._subject, self._asks = Address.of(os.fspath(where)), subject, asks
        self._query, self._account = query_of(strategy, errors, window, asks), Account(since)
        super().__init__(self._account, timeout=timeout, connect_timeout=connect_timeout, patience=patience)

    async def _joined(self, ends: Optional[float]) -> EventWire:
        account = self._account
        account.comes()
        request = self._address.request(self._subject, self._query, account.last)
        wire = await EventWire.open(self._address, request, account.last, ends)
        account.is_over = wire.has_ended
        try:
            while not account.has_joined and not account.is_over:
                account.hear(await wire.event(ends))
        except BaseException:
            wire.close()
            raise
        return wire

    async def _hear_next(self, link: EventWire, ends: Optional[float]) -> None:
        account = self._account
        if self._asks and account.to_ask_for:
            if not await asked(self._address, self._address.items(self._subject, account.observer, account.to_ask_for), ends):
                link.leave()
            account.to_ask_for = 0
        account.hear(await link.event(ends))


async def subscribe(
    where: Where,
    subject: str,
    strategy: Strategy = BUFFER,
    errors: Errors = Errors.DELAY,
    *,
    window: Optional[int] = None,
    asks: bool = False,
    since: Optional[Position] = None,
    timeout: Optional[float] = None,
    connect_timeout: Optional[float] = TIMEOUT,
    patience: Optional[float] = None,
) -> EventSubscription:
    """Follows a subject, as `rxline.events.subscribe`: once this returns it has joined."""
    subscription = EventSubscription(
        where,
        subject,
        strategy,
        errors,
        since,
        window=window,
        asks=asks,
        timeout=timeout,
        connect_timeout=connect_timeout,
        patience=patience,
    )
    await subscription._join(None)
    return subscription


async def publish(where: Where, subject: str, text: Text, *, key: Optional[str] = None, timeout: Optional[float] = TIMEOUT) -> Position:
    """Emits a text, and returns where it stands, as `rxline.events.publish`."""
    return await posted(*emission_of(where, subject, "", bytes_of(text), key), moment_after(timeout))


async def publish_lines(where: Where, subject: str, texts: Iterable[Text], *, timeout: Optional[float] = TIMEOUT) -> List[Position]:
    """Emits texts by one request, and returns where each stands, as `rxline.events.publish_lines`."""
    return await posted_lines(*lines_of(where, subject, texts), moment_after(timeout))


async def complete(where: Where, subject: str, *, key: Optional[str] = None, timeout: Optional[float] = TIMEOUT) -> None:
    """Completes the subject, for good. As `publish`."""
    await posted(*emission_of(where, subject, "/end", b"", key), moment_after(timeout))


async def fail(where: Where, subject: str, text: Text, *, key: Optional[str] = None, timeout: Optional[float] = TIMEOUT) -> None:
    """Ends the subject by an error, for good. As `publish`."""
    await posted(*emission_of(where, subject, "/fail", bytes_of(text), key), moment_after(timeout))
