"""The lines that `sweep` answers, and the rows that they are."""

import re
from collections.abc import Sequence
from dataclasses import dataclass

from shared_lib.causes import NAMES

SWEPT = 5
EXTRA = ("squashed ", "stack ")
RAN = re.compile(
    r"(pass|fail [0-9]+|limit|output full) cycles ([0-9]+) instructions ([0-9]+)"
    r" mispredicted ([0-9]+) icache ([0-9]+) dcache ([0-9]+)"
)
REFUSED = re.compile(r"(?:machine|image): .+")


@dataclass(frozen=True)
class Row:
    """What a run gave: how it ended with its numbers, or why the machine was refused."""

    end: str
    cycles: int | None = None
    instructions: int | None = None
    mispredicted: int | None = None
    icache_misses: int | None = None
    dcache_misses: int | None = None
    squashed: int | None = None
    reason: str = ""
    causes: dict[str, int] | None = None

    @property
    def is_refused(self) -> bool:
        """Whether there was no run."""
        return self.cycles is None

    @property
    def is_whole(self) -> bool:
        """Whether the program came to its end, so that cycles can be compared."""
        return self.end == "pass" or self.end.startswith("fail")

    @property
    def rate(self) -> float | None:
        """Instructions per cycle."""
        if not self.cycles or self.instructions is None:
            return None
        return self.instructions / self.cycles


@dataclass(frozen=True)
class Refusal:
    """A whole call of `sweep` that was refused."""

    status: int
    line: str


def row_of(
    text: str, squashed: int | None = None, causes: dict[str, int] | None = None
) -> Row | None:
    """The row of what stands behind a name, or None where it is no answer of `sweep`."""
    if match := RAN.fullmatch(text):
        end, *numbers = match.groups()
        cycles, instructions, mispredicted, icache, dcache = map(int, numbers)
        if causes is not None and sum(causes.values()) != cycles:
            return None
        return Row(end, cycles, instructions, mispredicted, icache, dcache, squashed, causes=causes)
    if REFUSED.fullmatch(text):
        return Row("refused", reason=text)
    return None


def stack_of(line: str) -> tuple[str, dict[str, int] | None]:
    """The machine's name and its cycles by cause, of a line of an answer; None where it is cut."""
    _, name, *words = line.split()
    numbers = [int(word) for word in words[1::2] if word.isdecimal()]
    is_whole = words[::2] == [f"{name}:" for name in NAMES] and len(numbers) == len(NAMES)
    return name, dict(zip(NAMES, numbers, strict=True)) if is_whole else None


def read_answer(text: str, names: Sequence[str]) -> list[Row] | Refusal | None:
    """The rows of a batch in the order of its names; None where the answer isn't whole.

    An answer is the lines of `sweep`, lines `squashed NAME NUMBER` and `stack NAME CAUSE: NUMBER
    CAUSE: NUMBER ..` where they were wanted, and a last line `status NUMBER`.
    """
    *lines, last = text.splitlines() or [""]
    if not text.endswith("\n") or not re.fullmatch("status [0-9]{1,3}", last):
        return None
    status = int(last.split()[1])
    if status != SWEPT:
        return Refusal(status, " ".join(lines)) if 10 <= status < 30 and len(lines) == 1 else None
    marks = [line.split(" ") for line in lines if line.startswith("squashed ")]
    squashed = {mark[1]: int(mark[2]) for mark in marks if len(mark) == 3 and mark[2].isdecimal()}
    stacks = dict(stack_of(line) for line in lines if line.startswith("stack "))
    swept = dict(line.partition(": ")[::2] for line in lines if not line.startswith(EXTRA))
    rows = [row_of(swept.get(name, ""), squashed.get(name), stacks.get(name)) for name in names]
    if len(swept) != len(names) or None in rows:
        return None
    return [row for row in rows if row is not None]
