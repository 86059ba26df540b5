"""The frame of the tools' self-tests."""

import subprocess
import sys
import tempfile
from collections.abc import Callable, Iterator
from pathlib import Path

from .faults import Fault


class Checks:
    """Checks that share a folder of their own, and keep what went wrong.

    Each method whose name begins with `check_` is one; they run in the order of their definition.
    """

    def __init__(self, folder: Path):
        self.folder = folder
        self.faults: list[str] = []

    def expect(self, what: str, got: object, wanted: object) -> None:
        """Notes a fault where two values differ."""
        if got != wanted:
            self.faults.append(f"{what}: got {got!r}, and wanted {wanted!r}")

    def run(self) -> None:
        """Runs all checks. One that can't go on is a fault, and doesn't end the others."""
        for check in self.all_checks():
            try:
                check()
            except (Fault, OSError, subprocess.TimeoutExpired) as fault:
                self.faults.append(f"{check.__name__}: {fault}")

    def all_checks(self) -> Iterator[Callable[[], None]]:
        """The checks."""
        for name in vars(type(self)):
            if name.startswith("check_"):
                yield getattr(self, name)


def run_checks(tool: str, made: Callable[[Path], Checks]) -> int:
    """Runs the checks of a tool; says what went wrong, and gives the exit status."""
    with tempfile.TemporaryDirectory() as name:
        checks = made(Path(name))
        checks.run()
    for text in checks.faults:
        print(f"{tool}: self-test: {text}", file=sys.stderr)
    return 1 if checks.faults else 0
