"""A comparison: seeds are played one after another, some at a time, until it is to end."""

import itertools
import shutil
import tempfile
import time
from collections.abc import Callable
from concurrent.futures import FIRST_COMPLETED, Future, ThreadPoolExecutor, wait
from dataclasses import dataclass
from pathlib import Path

from .answers import Call, ask, difference
from .cases import Case, draw_case
from .faults import Fault
from .keeping import Difference, keep
from .progress import Progress


@dataclass(frozen=True)
class Plan:
    """Which programs are compared, on what, and for how long."""

    fast: Path
    reference: Path
    kinds: list[str]
    seed: int
    seconds: float | None
    count: int | None
    jobs: int
    timeout: float
    folder: Path
    is_quiet: bool


@dataclass(frozen=True)
class Played:
    """What came of a seed."""

    case: Case
    differences: list[Difference]
    script: Path | None


@dataclass
class Totals:
    """How many seeds and calls were played, and how many seeds differ."""

    seeds: int = 0
    calls: int = 0
    differing: int = 0


class Comparison:
    """Plays seeds, and tells of each that differs."""

    def __init__(self, plan: Plan, tell: Callable[[str], None]):
        self._plan = plan
        self._tell = tell
        self.totals = Totals()

    def run(self) -> None:
        """Plays seeds until the time is over or all are played."""
        plan = self._plan
        end = None if plan.seconds is None else time.monotonic() + plan.seconds
        seeds = itertools.count(plan.seed)
        if plan.count is not None:
            seeds = itertools.islice(seeds, plan.count)
        progress = Progress(plan.seconds, plan.count, plan.is_quiet)
        running: set[Future[Played]] = set()
        with ThreadPoolExecutor(plan.jobs) as workers:
            try:
                while True:
                    is_over = end is not None and time.monotonic() >= end
                    more = [] if is_over else itertools.islice(seeds, plan.jobs - len(running))
                    running |= {workers.submit(self._play, seed) for seed in more}
                    if not running:
                        return
                    done, running = wait(running, timeout=0.2, return_when=FIRST_COMPLETED)
                    for future in done:
                        self._add(future.result())
                    progress.draw(self.totals.seeds, self.totals.calls, self.totals.differing)
            finally:
                progress.end()
                for future in running:
                    future.cancel()

    def _play(self, seed: int) -> Played:
        """Draws a case and makes its calls to both programs."""
        plan = self._plan
        case = draw_case(seed, plan.kinds)
        work = Path(tempfile.mkdtemp(prefix="differential-"))
        try:
            case.write(work)
            self._make_packets(case, work)
            differences = [
                Difference(call, text)
                for call in case.calls
                if (text := self._fault_of(call, work))
            ]
            script = None
            if differences:
                script = keep(case, work, differences, plan.folder, (plan.fast, plan.reference))
            return Played(case, differences, script)
        finally:
            shutil.rmtree(work, ignore_errors=True)

    def _make_packets(self, case: Case, work: Path) -> None:
        """Has the reference draw the packets of a session."""
        if not case.packets:
            return
        words = tuple(case.packets)
        answer = ask(self._plan.reference, words, None, work, self._plan.timeout)
        if answer.status != 0:
            raise Fault(f"seed {case.seed}: the reference draws no packets")
        (work / "packets").write_bytes(answer.output)

    def _fault_of(self, call: Call, work: Path) -> str | None:
        """How the answers to a call differ, if they do."""
        plan = self._plan
        name, other = ("reference", plan.reference) if call.again else ("fast", plan.fast)
        words = call.again or call.words
        wanted = ask(plan.reference, call.words, call.stdin, work, plan.timeout)
        got = ask(other, words, call.stdin, work, plan.timeout)
        if wanted.status is not None and not wanted.differs(got):
            return None
        return f"{name} {' '.join(words)}: {difference(wanted, got)}"

    def _add(self, played: Played) -> None:
        """Counts a seed, and tells of its differences."""
        self.totals.seeds += 1
        self.totals.calls += len(played.case.calls)
        if not played.differences:
            return
        self.totals.differing += 1
        for one in played.differences:
            self._tell(f"seed {played.case.seed}: {one.text}")
        self._tell(f"seed {played.case.seed}: {played.script} shows it again")
