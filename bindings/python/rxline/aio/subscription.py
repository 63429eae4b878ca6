"""Following one subject by lines, by asyncio."""

from typing import Optional

from .._connection import Path
from .._lines import join_line
from .._progress import Progress
from ..notes import Position
from ..policy import Errors, Strategy
from ._following import Following
from ._wire import Wire, joined


class Subscription(Following[Wire]):
    """The notes of one subject, as `rxline.Subscription`. One task asks for notes at a time; another may close it."""

    def __init__(
        self,
        path: Path,
        subject: str,
        strategy: Strategy,
        errors: Errors,
        since: Optional[Position],
        *,
        timeout: Optional[float],
        connect_timeout: Optional[float],
        patience: Optional[float],
        epoch_subject: Optional[str],
    ) -> None:
        self._path, self._line, self._epoch_subject = path, join_line(subject, strategy, errors), epoch_subject
        self._progress = Progress(since, strategy)
        super().__init__(self._progress, timeout=timeout, connect_timeout=connect_timeout, patience=patience)

    async def _joined(self, ends: Optional[float]) -> Wire:
        wire, epoch = await joined(self._path, self._line, self._epoch_subject, ends)
        self._progress.joined(epoch)
        return wire

    async def _hear_next(self, link: Wire, ends: Optional[float]) -> None:
        self._progress.hear(await link.line(ends))
