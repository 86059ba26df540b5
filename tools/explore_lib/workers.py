"""Who runs the batches. This computer's workers stand here; the others in modules of their own.

Nothing here counts on a batch coming back: what is missing when all workers are done is handed out
again by the caller.
"""

import ctypes
import os
import signal
import subprocess
from abc import ABC, abstractmethod
from collections.abc import Iterator
from pathlib import Path

from .batches import Batch, WorkFolder

PR_SET_PDEATHSIG = 1
SECONDS_TO_END = 10.0
SECONDS_TO_ASK = 0.5


class Workers(ABC):
    """Runs the batches of one round, of which `most` may be handed out at once."""

    most: int | None = None

    @abstractmethod
    def start(self, work: WorkFolder, batches: list[Batch]) -> None:
        """Hands the batches out."""

    @abstractmethod
    def is_over(self) -> bool:
        """Whether nothing more will come. To be asked before `answers`, so that none is missed."""

    @abstractmethod
    def answers(self) -> Iterator[tuple[str, str]]:
        """The batches that came back since the last call, by their names, with what they wrote."""

    @abstractmethod
    def stop(self) -> None:
        """Ends what is still at work."""


class Here(Workers):
    """Runs batches on this computer, some at a time."""

    def __init__(self, jobs: int):
        self._jobs = jobs
        self._path = Path()
        self._waiting: list[str] = []
        self._running: dict[str, subprocess.Popen[bytes]] = {}

    def start(self, work: WorkFolder, batches: list[Batch]) -> None:
        self._path = work.path
        self._waiting = [batch.name for batch in reversed(batches)]
        self._fill()

    def is_over(self) -> bool:
        return not self._running and not self._waiting

    def answers(self) -> Iterator[tuple[str, str]]:
        for name, process in list(self._running.items()):
            if process.poll() is not None:
                del self._running[name]
                yield name, self._answer(name).read_text(errors="replace")
        self._fill()

    def stop(self) -> None:
        for process in self._running.values():
            end_group(process)
        self._running.clear()
        self._waiting.clear()

    def _fill(self) -> None:
        while self._waiting and len(self._running) < self._jobs:
            name = self._waiting.pop()
            with self._answer(name).open("wb") as answer:
                self._running[name] = start_group(["./batch.sh", name], self._path, answer)

    def _answer(self, name: str) -> Path:
        return self._path / f"{name}.answer"


def start_group(words: list[str], folder: Path, output, errors=None) -> subprocess.Popen[bytes]:
    """Starts a program with all that it starts in a group of its own, which can be ended whole.

    Where this program is killed, the started one is asked to end.
    """
    return subprocess.Popen(
        words,
        cwd=folder,
        stdin=subprocess.DEVNULL,
        stdout=output,
        stderr=errors,
        start_new_session=True,
        preexec_fn=end_with_parent,
    )


def end_with_parent() -> None:
    """Lets Linux ask this process to end where its parent is gone."""
    ctypes.CDLL(None).prctl(PR_SET_PDEATHSIG, signal.SIGTERM)


def end_group(process: subprocess.Popen[bytes], asked: int = 1) -> None:
    """Ends a program and all that it started: asks some times, and then kills."""
    signs = [signal.SIGTERM] * asked + [signal.SIGKILL]
    for place, sign in enumerate(signs):
        try:
            os.killpg(process.pid, sign)
            process.wait(SECONDS_TO_END if place + 1 >= asked else SECONDS_TO_ASK)
        except (ProcessLookupError, subprocess.TimeoutExpired):
            pass
