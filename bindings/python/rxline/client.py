"""A client whose calls wait. `rxline.aio` has the same for asyncio."""

import contextlib
import threading
import time
from typing import Iterable, Iterator, Optional

from ._backoff import Backoff
from ._batch import Batch
from ._connection import Connection, Path, moment_after
from ._lines import HELLO, Text, check, complete_line, fail_line, publish_line
from .errors import Closed, ConnectionLost, NoServer, TimedOut
from .notes import Position
from .policy import BUFFER, Errors, Strategy
from .subscription import Subscription

WINDOW = 64  # lines
TIMEOUT = 10.0  # seconds


class Client:
    """Emits by one connection of its own, which is made anew where it was lost, and follows subjects by one each. Threads may share
    it: their calls go one after another."""

    def __init__(
        self,
        path: Path,
        *,
        timeout: Optional[float] = TIMEOUT,
        patience: Optional[float] = None,
        epoch_subject: Optional[str] = None,
    ) -> None:
        """Connects to the server at this path. NoServer, TimedOut.

        `timeout`: how many seconds a connection and an answer may take; None for any. `patience`: for how many seconds a lost
        server is waited for, by a subscription and by `publish_many` with `resend`; None for ever, 0 for not at all.
        `epoch_subject`: the subject by which a server that is reached through another one's socket, as by ssh, tells which one it
        is."""
        self._path, self._timeout, self._patience, self._epoch_subject = path, timeout, patience, epoch_subject
        self._lock = threading.Lock()
        self._is_closed = False
        self._connection: Optional[Connection] = Connection(path, moment_after(timeout))

    def publish(self, subject: str, text: Text) -> None:
        """Emits an item; once this returns the server has it. Refused; NoServer, and then it was not emitted; ConnectionLost or
        TimedOut, and then it may have been, or not."""
        self._ask(publish_line(subject, text))

    def publish_many(self, subject: str, texts: Iterable[Text], *, window: int = WINDOW, resend: bool = False) -> int:
        """Emits these in their order, up to `window` of them before the first is answered, and returns how many there were.
        NotAllPublished, which tells of each what became of it: where one is refused no more are sent.

        With `resend` what was sent and not answered is sent once more by the next connection, so it may be emitted twice."""
        batch = Batch((publish_line(subject, text) for text in texts), window)
        backoff = Backoff(self._patience)
        with self._lock:
            while not self._send_all(batch, backoff, resend):
                batch.send_again()
        return batch.outcome()

    def _send_all(self, batch: Batch, backoff: Backoff, resend: bool) -> bool:
        """Whether this was the last try. Waits where there is to be another one."""
        try:
            with self._connected() as connection:
                self._exchange(connection, batch, backoff)
            return True
        except (ConnectionLost, NoServer, TimedOut) as fault:
            pause = backoff.pause(time.monotonic()) if resend and self._patience != 0 else None
            if pause is None:
                batch.stop(fault)
                return True
            time.sleep(pause)
            return False

    def _exchange(self, connection: Connection, batch: Batch, backoff: Backoff) -> None:
        while True:
            lines = batch.more()
            if lines:
                connection.send(b"".join(lines), moment_after(self._timeout))
            if not batch.waits:
                return
            batch.answer(connection.line(moment_after(self._timeout)))
            backoff.reset()

    def complete(self, subject: str) -> None:
        """Completes the subject, for good. As `publish`."""
        self._ask(complete_line(subject))

    def fail(self, subject: str, text: Text) -> None:
        """Ends the subject by an error, for good. As `publish`."""
        self._ask(fail_line(subject, text))

    def ping(self) -> None:
        """Asks the server for an answer, and for nothing else. NoServer, ConnectionLost, TimedOut."""
        self._ask(HELLO)

    def subscribe(
        self,
        subject: str,
        strategy: Strategy = BUFFER,
        errors: Errors = Errors.DELAY,
        *,
        since: Optional[Position] = None,
        timeout: Optional[float] = None,
    ) -> Subscription:
        """Follows a subject, from now on or behind the position `since`, by a connection of its own: once this returns it has
        joined. `timeout`: how many seconds to wait for a note; None for ever. Refused, NoServer, ConnectionLost."""
        if self._is_closed:
            raise Closed("the client was closed")
        return Subscription(
            self._path,
            subject,
            strategy,
            errors,
            since,
            timeout=timeout,
            connect_timeout=self._timeout,
            patience=self._patience,
            epoch_subject=self._epoch_subject,
        )

    def _ask(self, line: bytes) -> None:
        with self._lock, self._connected() as connection:
            connection.send(line, moment_after(self._timeout))
            answer = connection.line(moment_after(self._timeout))
        check(answer)

    @contextlib.contextmanager
    def _connected(self) -> Iterator[Connection]:
        """The connection, made anew where it is gone, for lines and all their answers. After a fault in its use it is gone."""
        if self._is_closed:
            raise Closed("the client was closed")
        if self._connection is not None and self._connection.is_cut():
            self._drop()
        if self._connection is None:
            self._connection = Connection(self._path, moment_after(self._timeout))
        try:
            yield self._connection
        except BaseException:
            self._drop()
            raise

    def _drop(self) -> None:
        if self._connection is not None:
            self._connection.close()
            self._connection = None

    def close(self) -> None:
        """Ends its connection. Subscriptions go on until they are closed themselves."""
        with self._lock:
            self._is_closed = True
            self._drop()

    def __enter__(self) -> "Client":
        return self

    def __exit__(self, *_: object) -> None:
        self.close()


def connect(
    path: Path,
    *,
    timeout: Optional[float] = TIMEOUT,
    patience: Optional[float] = None,
    epoch_subject: Optional[str] = None,
) -> Client:
    """A client of the server at this path, as `Client` says. NoServer, TimedOut."""
    return Client(path, timeout=timeout, patience=patience, epoch_subject=epoch_subject)
