"""A client whose calls are awaited."""

import asyncio
import time
from collections import deque
from typing import Deque, Iterable, Optional

from .._backoff import Backoff
from .._batch import Batch
from .._connection import Path
from .._lines import HELLO, Text, check, complete_line, fail_line, publish_line
from ..client import TIMEOUT, WINDOW
from ..errors import Closed, ConnectionLost, NoServer, TimedOut
from ..notes import Position
from ..policy import BUFFER, Errors, Strategy
from ._link import Link
from .subscription import Subscription


class Client:
    """Emits by one connection, which is made anew where it was lost, and follows subjects by one each: `connect` makes one."""

    def __init__(
        self, path: Path, *, timeout: Optional[float], patience: Optional[float], epoch_subject: Optional[str]
    ) -> None:
        self._path, self._timeout, self._patience, self._epoch_subject = path, timeout, patience, epoch_subject
        self._link: Optional[Link] = None
        self._linking = asyncio.Lock()
        self._is_closed = False

    async def publish(self, subject: str, text: Text) -> None:
        """Emits an item; once this returns the server has it. Refused; NoServer, and then it was not emitted; ConnectionLost or
        TimedOut, and then it may have been, or not."""
        await self._ask(publish_line(subject, text))

    async def publish_many(self, subject: str, texts: Iterable[Text], *, window: int = WINDOW, resend: bool = False) -> int:
        """Emits these in their order, as `rxline.Client.publish_many`. NotAllPublished."""
        batch = Batch((publish_line(subject, text) for text in texts), window)
        backoff = Backoff(self._patience)
        while not await self._send_all(batch, backoff, resend):
            batch.send_again()
        return batch.outcome()

    async def _send_all(self, batch: Batch, backoff: Backoff, resend: bool) -> bool:
        """Whether this was the last try. Waits where there is to be another one."""
        try:
            await self._exchange(await self._linked(), batch, backoff)
            return True
        except (ConnectionLost, NoServer, TimedOut) as fault:
            pause = backoff.pause(time.monotonic()) if resend and self._patience != 0 else None
            if pause is None:
                batch.stop(fault)
                return True
            await asyncio.sleep(pause)
            return False

    async def _exchange(self, link: Link, batch: Batch, backoff: Backoff) -> None:
        answers: "Deque[asyncio.Future[bytes]]" = deque()
        while True:
            lines = batch.more()
            if lines:
                answers.extend(link.send(lines))
            if not answers:
                return
            batch.answer(await answers.popleft())
            backoff.reset()

    async def complete(self, subject: str) -> None:
        """Completes the subject, for good. As `publish`."""
        await self._ask(complete_line(subject))

    async def fail(self, subject: str, text: Text) -> None:
        """Ends the subject by an error, for good. As `publish`."""
        await self._ask(fail_line(subject, text))

    async def ping(self) -> None:
        """Asks the server for an answer, and for nothing else. NoServer, ConnectionLost, TimedOut."""
        await self._ask(HELLO)

    async def subscribe(
        self,
        subject: str,
        strategy: Strategy = BUFFER,
        errors: Errors = Errors.DELAY,
        *,
        since: Optional[Position] = None,
        timeout: Optional[float] = None,
    ) -> Subscription:
        """Follows a subject, as `rxline.Client.subscribe`: once this returns it has joined. Refused, NoServer, ConnectionLost."""
        if self._is_closed:
            raise Closed("the client was closed")
        subscription = Subscription(
            self._path,
            subject,
            strategy,
            errors,
            since,
            timeout=timeout,
            connect_timeout=self._timeout,
            patience=self._patience,
            epoch_subject=self._epoch_subject,
        )
        await subscription._join(None)
        return subscription

    async def _ask(self, line: bytes) -> None:
        link = await self._linked()
        [answer] = link.send([line])
        check(await answer)

    async def _linked(self) -> Link:
        """The connection, made anew where it is gone, by one task for all."""
        async with self._linking:
            if self._link is not None and self._link.is_lost:
                self._link.close()
                self._link = None
            if self._link is None and not self._is_closed:
                self._link = await Link.open(self._path, self._timeout)
            if self._link is None or self._is_closed:
                await self.close()
                raise Closed("the client was closed")
            return self._link

    async def close(self) -> None:
        """Ends its connection. Subscriptions go on until they are closed themselves."""
        self._is_closed = True
        if self._link is not None:
            self._link.close()

    async def __aenter__(self) -> "Client":
        return self

    async def __aexit__(self, *_: object) -> None:
        await self.close()


async def connect(
    path: Path,
    *,
    timeout: Optional[float] = TIMEOUT,
    patience: Optional[float] = None,
    epoch_subject: Optional[str] = None,
) -> Client:
    """A client of the server at this path, its words as those of `rxline.Client`. NoServer, TimedOut."""
    client = Client(path, timeout=timeout, patience=patience, epoch_subject=epoch_subject)
    await client._linked()
    return client
