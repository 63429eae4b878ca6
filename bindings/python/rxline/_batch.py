"""Many lines, of which some are on their way at a time."""

from collections import deque
from typing import Deque, Dict, Iterator, List, Optional

from ._lines import check
from .errors import NotAllPublished, Refused


class Batch:
    """The lines of `publish_many`. No more are sent once one was refused, or one could not be made."""

    def __init__(self, lines: Iterator[bytes], window: int) -> None:
        if window < 1:
            raise ValueError(f"a window has at least 1 line, not {window}")
        self._lines, self._window = lines, window
        self._again: Deque[bytes] = deque()  # what goes before the others
        self._unanswered: Deque[bytes] = deque()
        self._answered = self._sent = 0
        self._refused: Dict[int, Refused] = {}
        self._fault: Optional[Exception] = None
        self._is_over = False

    def more(self) -> List[bytes]:
        """The lines to send now: none while more than half a window waits for answers."""
        sent: List[bytes] = []
        if len(self._unanswered) <= self._window // 2:
            while len(self._unanswered) < self._window and self._has_next():
                self._unanswered.append(self._again.popleft())
                sent.append(self._unanswered[-1])
            self._sent = max(self._sent, self._answered + len(self._unanswered))
        return sent

    def _has_next(self) -> bool:
        """Whether there is one more, which then stands in front of `_again`."""
        if not self._again and not self._is_over:
            try:
                self._again.append(next(self._lines))
            except StopIteration:
                self._is_over = True
            except Exception as fault:
                self.stop(fault)
        return bool(self._again)

    @property
    def waits(self) -> bool:
        """Whether an answer is to come."""
        return bool(self._unanswered)

    def answer(self, answer: bytes) -> None:
        """Takes the answer to the oldest line that has none."""
        try:
            check(answer)
        except Refused as refused:
            self._refused[self._answered] = refused
            self.stop(refused)
        self._unanswered.popleft()
        self._answered += 1

    def stop(self, fault: Exception) -> None:
        """Sends no more, for this cause, unless there was one before."""
        self._fault = self._fault or fault
        self._is_over = True
        self._again.clear()

    def send_again(self) -> None:
        """The connection is another one: what has no answer is to be sent once more."""
        self._again.extendleft(reversed(self._unanswered))
        self._unanswered.clear()

    def outcome(self) -> int:
        """How many were accepted, where all were. NotAllPublished."""
        accepted = self._answered - len(self._refused)
        if self._fault is not None:
            raise NotAllPublished(accepted, self._refused, range(self._answered, self._sent)) from self._fault
        return accepted
