"""The test of this program, with the reference on both sides. Silent where it passes."""

import contextlib
import io
import subprocess
from pathlib import Path

from shared_lib.checks import Checks, run_checks

from . import command
from .cases import draw_case
from .kinds import ALL_KINDS, KINDS
from .simulators import find_reference

SECONDS = 120
OPTIONED = ["func", "run", "inorder", "back", "sweep"]

# Programs that answer as the reference does, but for some words.
PASSING = ""
COUNTING = """case $1 in
    run)
        text=$('{reference}' "$@"; echo "$?")
        echo "$text" | sed -e 's/^cycles: /&1/' -e '$d'
        exit "$(echo "$text" | tail -n 1)"
        ;;
esac"""
ENDING = """case $1 in back) '{reference}' "$@"; exit 3 ;; esac"""
SLEEPING = """case $1 in func) exec sleep 60 ;; esac"""
PROGRAM = """#!/bin/sh
{body}
exec '{reference}' "$@"
"""


class SelfTest(Checks):
    """The checks, with the reference."""

    def __init__(self, folder: Path, reference: Path):
        super().__init__(folder)
        self.reference = reference

    def program(self, name: str, body: str) -> Path:
        """A program that stands for `fast`."""
        path = self.folder / name
        own = body.replace("{reference}", str(self.reference))
        path.write_text(PROGRAM.format(body=own, reference=self.reference))
        path.chmod(0o755)
        return path

    def compare(self, fast: Path, *more: str) -> tuple[int, list[str]]:
        """Compares, and gives the status with the lines that were said."""
        words = ["--fast", str(fast), "--reference", str(self.reference), "--quiet"]
        words += ["--folder", str(self.folder / "kept"), "--jobs", "2"]
        said = io.StringIO()
        with contextlib.redirect_stderr(said), contextlib.redirect_stdout(said):
            status = command.main([*words, *more])
        return status, said.getvalue().splitlines()

    def check_cases(self) -> None:
        """A seed always gives the same case, and a kind the same calls beside any others."""
        whole, again = draw_case(7, ALL_KINDS), draw_case(7, ALL_KINDS)
        self.expect("cases: again", again, whole)
        self.expect("cases: another seed", draw_case(8, ALL_KINDS).files == whole.files, False)
        for kind in ALL_KINDS:
            own = [call for call in whole.calls if call.kind == kind]
            self.expect(f"cases: {kind} alone", draw_case(7, [kind]).calls, own)
        soaks = [seed for seed in range(80) if draw_case(seed, ["soak"]).calls]
        self.expect("cases: soaks", soaks, [0, 40])
        drawn = [call.words for seed in range(20) for call in draw_case(seed, OPTIONED).calls]
        for option in ("--machine", "--pipeline", "--exit-code"):
            self.expect(f"cases: {option}", any(option in words for words in drawn), True)

    def check_same(self) -> None:
        """A program that answers alike has no differences, in all kinds."""
        same = self.program("same", PASSING)
        self.expect("same", self.compare(same, "--count", "3", "--seed", "100"), (0, []))
        itself = self.compare(same, "--count", "2", "--kinds", "itself")
        self.expect("same: the reference and itself", itself, (0, []))
        short = self.compare(same, "--seconds", "1", "--kinds", "func")
        self.expect("same: by the clock", short, (0, []))

    def check_difference(self) -> None:
        """A line that differs is told, and its case is kept with a script that shows it."""
        counting = self.program("counting", COUNTING)
        words = ["--count", "1", "--seed", "101", "--kinds", "func,run"]
        status, lines = self.compare(counting, *words)
        self.expect("difference: status", status, 1)
        self.expect("difference: lines", len(lines), 3)
        told = "[cycles: 1" in lines[0] and "seed 101: fast run p.elf" in lines[0]
        self.expect(f"difference: {lines[0]}", told, True)
        script = self.folder / "kept" / "101" / "again.sh"
        self.expect("difference: script", lines[1].split(": ")[2].split(" ")[0], str(script))
        shown = subprocess.run(
            [script], capture_output=True, text=True, timeout=SECONDS, check=False
        )
        self.expect("difference: shown again", shown.stdout.count("> cycles: 1"), 1)
        self.expect("difference: files", (script.parent / "p.elf").exists(), True)

    def check_statuses(self) -> None:
        """Another status is a difference, and so is a call that doesn't end."""
        words = ["--count", "1", "--seed", "102", "--kinds"]
        status, lines = self.compare(self.program("ending", ENDING), *words, "back")
        self.expect("status: status", status, 1)
        self.expect("status: line", "status 3 for status 5" in lines[0], True)
        sleeping = self.program("sleeping", SLEEPING)
        status, lines = self.compare(sleeping, *words, "func", "--timeout", "2")
        self.expect("no end: status", status, 1)
        self.expect("no end: line", "no end in time for status" in lines[0], True)

    def check_kinds(self) -> None:
        """Kinds that aren't known are refused."""
        same = self.program("same", PASSING)
        status, lines = self.compare(same, "--kinds", "func,walk")
        self.expect("kinds: status", status, 2)
        told = len(lines) == 1 and "'walk' is no kind" in lines[0]
        self.expect(f"kinds: {lines}", told, True)

    def check_missing(self) -> None:
        """A program that isn't there ends the comparison with one line."""
        status, lines = self.compare(self.folder / "nothere", "--kinds", ",".join(KINDS))
        self.expect("missing: status", status, 2)
        self.expect(f"missing: {lines}", len(lines) == 1 and "is no program" in lines[0], True)


def self_test(reference: Path | None) -> int:
    """Runs all checks; says what went wrong."""
    program = find_reference(reference)
    return run_checks("differential", lambda folder: SelfTest(folder, program))
