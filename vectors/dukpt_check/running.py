"""Running the cases against an adapter, which is started again where it ends or hangs."""
from __future__ import annotations

import time
from collections import Counter
from typing import Callable, Optional, Sequence, Union

from .cases import Case
from .judging import Kind, Verdict, judge
from .process import Adapter, Ended, Silent, TooLong, Trouble
from .protocol import Answer, Garbage, read_answer, request_line

KINDS = {Ended: Kind.ENDED, Silent: Kind.SILENT, TooLong: Kind.TOO_LONG}
# So often an adapter is started that has never answered anything.
STARTS_WITHOUT_ANSWER = 3
# How long one waits on for an answer once an earlier case's came, in seconds: it comes next.
GRACE = 1.0


class Run:
    """A run of cases against an adapter."""

    def __init__(self, words: Sequence[str], seconds: float, restarts: int) -> None:
        """With a limit of seconds for each answer, and of restarts in each operation."""
        self.words, self.seconds, self.restarts = words, seconds, restarts
        self._adapter: Optional[Adapter] = None
        self._asked: set[int] = set()
        self._restarts: Counter[str] = Counter()
        self._has_answered = False

    def verdicts(
        self, cases: Sequence[Case], tell: Callable[[int], None] = lambda count: None
    ) -> list[Verdict]:
        """How each of the cases ends. `tell` is told how many are done."""
        found = []
        self._start()
        try:
            for count, case in enumerate(cases, 1):
                found.append(self._verdict(case))
                tell(count)
        except BaseException:
            self._stop()
            raise
        if self._adapter is not None:
            self._adapter.finish()
        return found

    def _verdict(self, case: Case) -> Verdict:
        """How a case ends, which is not tried where the adapter failed too often."""
        why = self._gave_up(case.operation)
        if why:
            return Verdict(case, Kind.NOT_TRIED, why)
        if self._adapter is None:
            self._start()
        answer = self._answer(case)
        if isinstance(answer, (Ended, Silent, TooLong)):
            self._fail(case)
            return Verdict(case, KINDS[type(answer)], str(answer), said=answer.said)
        if not isinstance(answer, Garbage):
            self._has_answered = True
            if answer.number in self._asked - {case.number}:
                self._fail(case)
        return judge(case, answer)

    def _fail(self, case: Case) -> None:
        """Stops the adapter, which did not answer a case. The next case starts it again."""
        self._stop()
        self._restarts[case.operation] += 1

    def _gave_up(self, operation: str) -> str:
        """Why cases of an operation are not tried any more, if they are not."""
        failed = sum(self._restarts.values())
        if not self._has_answered and failed >= STARTS_WITHOUT_ANSWER:
            return f"the adapter was started {failed} times, and never answered"
        if self._restarts[operation] > self.restarts:
            return f"the adapter ended or hung in {self.restarts + 1} cases of the operation"
        return ""

    def _answer(self, case: Case) -> Union[Answer, Trouble]:
        """The answer to a case. An answer that comes late, to a case that was asked before, is
        passed over."""
        assert self._adapter is not None
        self._adapter.send(request_line(case))
        deadline = time.monotonic() + self.seconds
        late: Optional[Answer] = None
        while True:
            line = self._adapter.receive(deadline - time.monotonic())
            if not isinstance(line, bytes):
                break
            answer = read_answer(line)
            if isinstance(answer, Garbage) or answer.number not in self._asked:
                break
            late = answer
            deadline = min(deadline, time.monotonic() + GRACE)
        self._asked.add(case.number)
        if isinstance(line, bytes):
            return answer
        if isinstance(line, Silent):
            # No other answer came than one with the number of an earlier case.
            return late or Silent(self.seconds, line.said)
        return line

    def _start(self) -> None:
        """Starts the adapter, of which nothing was asked yet."""
        self._adapter, self._asked = Adapter(self.words), set()

    def _stop(self) -> None:
        """Stops the adapter, if it runs."""
        if self._adapter is not None:
            self._adapter.stop()
        self._adapter = None
