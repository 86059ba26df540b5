"""Rows by address, as `profile` and `count` write them, and stacks, as `stack` writes them."""

import csv
import re
from collections import Counter
from collections.abc import Iterable, Iterator
from dataclasses import dataclass
from pathlib import Path

from shared_lib.causes import NAMES
from shared_lib.faults import InputFault

OTHER = "other"
COUNT_COLUMNS = ["retired", "exceptions", "taken"]
COLUMNS = [
    *COUNT_COLUMNS,
    "fetched",
    "squashed",
    "mispredicted",
    "icache_accesses",
    "icache_misses",
    "dcache_accesses",
    "dcache_misses",
    "l2_accesses",
    "l2_misses",
    "writebacks",
    "cycles",
    *NAMES,
]
PLACE = ["address", "word"]


@dataclass(frozen=True)
class Row:
    """The word at an address and its counts. All that isn't text is one row without an address."""

    address: int | None
    word: int
    counts: Counter[str]


@dataclass(frozen=True)
class Profile:
    """The rows of a run. Without a pipeline there are no cycles: a step stands for each."""

    name: str
    rows: list[Row]
    unit: str = "cycles"

    @property
    def total(self) -> Counter[str]:
        """The sum of all rows."""
        return total_of(self.rows)


def total_of(rows: Iterable[Row]) -> Counter[str]:
    """The sum of some rows."""
    total: Counter[str] = Counter()
    for row in rows:
        total.update(row.counts)
    return total


def lost(counts: Counter[str]) -> list[tuple[str, int]]:
    """What cycles were lost to, the most first: all causes but that instructions left."""
    causes = [(name, counts[name]) for name in NAMES if name != "commit" and counts[name]]
    return sorted(causes, key=lambda pair: -pair[1])


def read_profile(path: Path) -> Profile:
    """The rows of a file."""
    with path.open(newline="", encoding="utf-8", errors="replace") as file:
        lines = csv.reader(file)
        head: list[str] = next(lines, [])
        if head == PLACE + COLUMNS:
            rows = list(read_rows(path, lines, COLUMNS))
            for row in rows:
                if row.counts["cycles"] != sum(row.counts[name] for name in NAMES):
                    raise InputFault(f"{path}: {place_text(row)}: its causes don't add up")
            return Profile(path.stem, rows)
        if head == PLACE + COUNT_COLUMNS:
            rows = list(read_rows(path, lines, COUNT_COLUMNS))
            for row in rows:
                steps = row.counts["retired"] + row.counts["exceptions"]
                row.counts["cycles"] = row.counts["commit"] = steps
            return Profile(path.stem, rows, "steps")
    raise InputFault(f"{path} has neither the head of a profile nor that of counts")


def read_rows(path: Path, lines: Iterator[list[str]], columns: list[str]) -> Iterator[Row]:
    """The rows after the head, by address."""
    before = -1
    for number, line in enumerate(lines, 2):
        try:
            place, word, *counts = line
            address = None if place == OTHER else int(place, 16)
            numbers = dict(zip(columns, map(int, counts), strict=True))
            row = Row(address, int(word, 16), Counter(numbers))
        except ValueError:
            raise InputFault(f"{path}: line {number} can't be read") from None
        key = 1 << 32 if address is None else address
        if key <= before or min(numbers.values()) < 0:
            raise InputFault(f"{path}: line {number} can't be read")
        before = key
        yield row


def place_text(row: Row) -> str:
    """A row's address as it is written."""
    return OTHER if row.address is None else f"{row.address:08x}"


def read_stack(path: Path) -> Counter[str]:
    """The cycles by cause of a file: rows, or what `stack` wrote."""
    text = path.read_text(encoding="utf-8", errors="replace")
    heads = re.findall(r"^head\.([a-z]+): ([0-9]+)$", text, re.MULTILINE)
    if [name for name, _ in heads] != NAMES:
        return read_profile(path).total
    stack = Counter({name: int(number) for name, number in heads})
    for name, key in {"cycles": "cycles", "retired": "instructions"}.items():
        found = re.findall(rf"^{key}: ([0-9]+)$", text, re.MULTILINE)
        if not found:
            raise InputFault(f"{path}: the line {key} is missing")
        stack[name] = int(found[-1])
    if stack["cycles"] != sum(stack[name] for name in NAMES):
        raise InputFault(f"{path}: its causes don't add up")
    return stack
