"""An exploration from its input to its rows."""

import time
from dataclasses import dataclass
from pathlib import Path

from shared_lib.faults import Fault
from shared_lib.files import sum_of

from .answers import Refusal
from .batches import Batch, WorkFolder
from .gnu_parallel import GnuParallel
from .journal import Work, identity, open_journals, other_rows
from .program import find_program
from .progress import Progress
from .slurm import Slurm, take_left
from .space import Extras, Machine, Space
from .workers import Here, Workers

SECONDS_TO_POLL = 0.1
TRIES = 3


@dataclass(frozen=True)
class Plan:
    """How an exploration is run."""

    folder: Path
    fast: Path
    on: str
    jobs: int | None
    batch: int
    logins: list[str]
    is_shared: bool
    sbatch: list[str]
    extras: Extras
    is_quiet: bool

    @property
    def log(self) -> Path:
        """Where GNU parallel and Slurm write what goes wrong."""
        return self.folder / f"{self.on}.log"


class Exploration:
    """Runs the machines of a space that have no row yet."""

    def __init__(self, space: Space, plan: Plan, tell):
        self.space = space
        self._plan = plan
        self._tell = tell
        take_left(plan.folder)
        self.journals = open_journals(plan.folder, space, plan.extras)

    def missing(self, work: Work) -> list[Machine]:
        """The machines without a row of an image."""
        rows = self.journals[work].rows
        machines = self.space.machines()
        return [one for one in machines if identity(self.space.values(one)) not in rows]

    def run(self) -> None:
        """Runs what is missing, in rounds, until each machine has its rows."""
        missing = {work: self.missing(work) for work in self.journals}
        finished = self.space.run_count - sum(map(len, missing.values()))
        self._say_what_is_there(finished)
        if finished == self.space.run_count:
            return
        program = find_program(self._plan.fast, *self._plan.extras.commands)
        workers = self._workers()
        progress = Progress(finished, self.space, self._plan.is_quiet)
        work = WorkFolder(self._plan.folder, program, self.space, self._plan.extras)
        try:
            batches = self._lay(work, missing)
            tries = dict.fromkeys((batch.name for batch in batches), 0)
            while batches:
                handed = batches[: workers.most]
                self._round(workers, work, handed, progress)
                self._count_tries(
                    [batch for batch in handed if not self._is_finished(batch)], tries
                )
                batches = [batch for batch in batches if not self._is_finished(batch)]
        finally:
            progress.end()
            work.remove()

    def _lay(self, work: WorkFolder, missing: dict[Work, list[Machine]]) -> list[Batch]:
        """Writes the machine files of what is missing, and checks the copies of the images."""
        batches: list[Batch] = []
        for number, (own, machines) in enumerate(missing.items(), 1):
            if sum_of(work.images[number - 1]) != own.image:
                raise Fault(f"{self.space.images[number - 1].path} changed just now")
            batches += work.lay(own, number, machines, self._plan.batch)
        return batches

    def _round(
        self, workers: Workers, work: WorkFolder, batches: list[Batch], progress: Progress
    ) -> None:
        """Hands batches out and keeps their rows as they come back."""
        named = {batch.name: batch for batch in batches}
        try:
            workers.start(work, batches)
            is_over = False
            while not is_over:
                is_over = workers.is_over()
                for name, text in workers.answers():
                    if name in named and self._keep(named[name], text):
                        progress.add(len(named[name].machines))
                progress.draw()
                if not is_over:
                    time.sleep(SECONDS_TO_POLL)
        finally:
            workers.stop()

    def _keep(self, batch: Batch, text: str) -> bool:
        """Keeps the rows of a batch, and tells whether they are new; ends at a refusal."""
        rows = batch.read(text)
        if isinstance(rows, Refusal):
            raise Fault(f"{batch.title}: {rows.line} (status {rows.status})")
        if rows is None or self._is_finished(batch):
            return False
        self.journals[batch.work].add(rows)
        return True

    def _is_finished(self, batch: Batch) -> bool:
        rows = self.journals[batch.work].rows
        return all(machine in rows for machine in batch.machines.values())

    def _count_tries(self, batches: list[Batch], tries: dict[str, int]) -> None:
        """Counts the rounds from which a batch didn't come back, and ends at too many."""
        for batch in batches:
            tries[batch.name] += 1
            if tries[batch.name] == TRIES:
                count = sum(len(batch.machines) for batch in batches)
                text = f"{count} {self.space.run_name} came back from {TRIES} rounds"
                text += " without an answer"
                raise Fault(text + self._last_of_log())

    def _last_of_log(self) -> str:
        """The last line that GNU parallel or Slurm wrote."""
        log = self._plan.log
        lines = log.read_text(errors="replace").splitlines() if log.exists() else []
        return f"; {log} ends in: {lines[-1].strip()}" if lines else ""

    def _workers(self) -> Workers:
        plan = self._plan
        if plan.on == "parallel":
            return GnuParallel(plan.logins, plan.jobs, plan.is_shared, plan.log)
        if plan.on == "slurm":
            return Slurm(plan.sbatch, plan.log)
        return Here(plan.jobs or 1)

    def _say_what_is_there(self, finished: int) -> None:
        """Says which rows of before are used, and which aren't."""
        total = self.space.run_count
        if 0 < finished < total:
            self._tell(f"{finished} of {total} {self.space.run_name} have their row; going on")
        if others := other_rows(self._plan.folder, self.journals):
            self._tell(f"{others}; they are kept")
