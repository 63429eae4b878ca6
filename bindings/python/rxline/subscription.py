"""Following one subject by lines."""

from typing import Optional

from ._connection import Connection, Path, joined
from ._following import Following
from ._lines import join_line
from ._progress import Progress
from .notes import Position
from .policy import Errors, Strategy


class Subscription(Following[Connection]):
    """The notes of one subject, over connections that end and servers that begin anew: `Client.subscribe` makes one.

    It ends behind `Completed` or `Failed`, and once it is closed. `position` is how far it is, the last note that it handed out
    included: who keeps it once the note is worked on, and hands it to `subscribe` as `since`, goes on behind it.
    """

    def __init__(
        self,
        path: Path,
        subject: str,
        strategy: Strategy,
        errors: Errors,
        since: Optional[Position],
        *,
        timeout: Optional[float],
        connect_timeout: Optional[float],
        patience: Optional[float],
        epoch_subject: Optional[str],
    ) -> None:
        self._path, self._line, self._epoch_subject = path, join_line(subject, strategy, errors), epoch_subject
        self._progress = Progress(since, strategy)
        super().__init__(self._progress, timeout=timeout, connect_timeout=connect_timeout, patience=patience)

    def _joined(self, ends: Optional[float]) -> Connection:
        connection, epoch = joined(self._path, self._line, self._epoch_subject, ends)
        self._progress.joined(epoch)
        return connection

    def _hear_next(self, link: Connection, ends: Optional[float]) -> None:
        self._progress.hear(link.line(ends))
