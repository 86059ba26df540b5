"""Hands the batches to Slurm, as an array of tasks, in a folder that its computers share."""

import json
import shutil
import subprocess
from collections.abc import Iterator
from dataclasses import asdict
from pathlib import Path

from shared_lib.faults import Fault

from .answers import Row
from .batches import PREFIX, Batch, WorkFolder
from .journal import Journal, Work
from .workers import Workers, end_group, start_group

ARRAY = "batches.json"

TASK = """\
#!/bin/sh
# A task of the array: runs the batch of its number, and puts the answer into place whole.
name=$(sed -n "$((SLURM_ARRAY_TASK_ID + 1))p" batches) && [ -n "$name" ] || exit 1
[ -e "$name.answer" ] && exit 0
./batch.sh "$name" >"$name.part.$SLURM_JOB_ID" || exit
mv "$name.part.$SLURM_JOB_ID" "$name.answer"
"""


class Slurm(Workers):
    """Runs batches by `sbatch --array`, as many at a time as an array has room for."""

    most = 1000

    def __init__(self, options: list[str], log: Path):
        for program in ("sbatch", "scancel"):
            if not shutil.which(program):
                raise Fault(f"{program} isn't there (Debian: apt-get install slurm-client)")
        self._options = options
        self._log = log
        self._process: subprocess.Popen[bytes] | None = None
        self._path = Path()
        self._missing: list[str] = []

    def start(self, work: WorkFolder, batches: list[Batch]) -> None:
        self._path = work.path
        self._missing = [batch.name for batch in batches]
        (work.path / "batches").write_text("".join(f"{name}\n" for name in self._missing))
        (work.path / ARRAY).write_text(json.dumps([asdict(batch) for batch in batches]))
        task = work.path / "task.sh"
        task.write_text(TASK)
        words = ["sbatch", "--wait", f"--job-name={work.path.name}", f"--chdir={work.path}"]
        words += [f"--array=0-{len(self._missing) - 1}", "--output=slurm-%a.log", "--requeue"]
        with self._log.open("ab") as log:
            words = [*words, *self._options, str(task)]
            self._process = start_group(words, work.path, log, log)

    def is_over(self) -> bool:
        return self._process is None or self._process.poll() is not None or not self._missing

    def answers(self) -> Iterator[tuple[str, str]]:
        for name in list(self._missing):
            answer = self._path / f"{name}.answer"
            if answer.exists():
                self._missing.remove(name)
                yield name, answer.read_text(errors="replace")

    def stop(self) -> None:
        if self._process is not None:
            if self._missing:
                cancel(self._path.name)
            end_group(self._process)
            self._process = None


def cancel(name: str) -> None:
    """Ends what is left of an array."""
    words = ["scancel", "--quiet", f"--name={name}", "--me"]
    subprocess.run(words, stdin=subprocess.DEVNULL, capture_output=True, check=False)


def take_left(folder: Path) -> None:
    """Ends the arrays of explorations that were killed here, and keeps the rows that they made."""
    for path in folder.glob(f"{PREFIX}*"):
        if (path / ARRAY).exists():
            cancel(path.name)
            for content in json.loads((path / ARRAY).read_text()):
                batch = Batch(**content | {"work": Work(**content["work"])})
                answer = path / f"{batch.name}.answer"
                rows = batch.read(answer.read_text()) if answer.exists() else None
                if isinstance(rows, dict):
                    keep_new(Journal(folder, batch.work), rows)
        shutil.rmtree(path, ignore_errors=True)


def keep_new(journal: Journal, rows: dict[str, Row]) -> None:
    """Keeps the rows that the journal hasn't."""
    new = {machine: row for machine, row in rows.items() if machine not in journal.rows}
    if new:
        journal.add(new)
