"""The tables as CSV: one row a run, and of a suite of images also one row a machine."""

import csv
import io
from collections.abc import Sequence
from dataclasses import dataclass
from pathlib import Path
from statistics import geometric_mean

from shared_lib.causes import NAMES
from shared_lib.files import write_whole

from .answers import Row
from .front import front_of
from .journal import Journal, identity
from .keys import Value
from .space import Extras, Machine, Space

Rows = tuple[Row | None, ...]


@dataclass(frozen=True)
class Entry:
    """A machine with its rows, one for each image, all its values, and its cost if there is one.

    `cycles` and `rate` are what is compared and drawn. Of a suite, `cycles` is the geometric mean
    of the cycles against those of machine 1, and `rate` is its inverse.
    """

    machine: Machine
    values: dict[str, Value]
    rows: Rows
    cost: float | None
    cycles: float | None
    rate: float | None

    @property
    def is_refused(self) -> bool:
        """Whether the machine was refused."""
        return any(row is not None and row.is_refused for row in self.rows)

    @property
    def is_whole(self) -> bool:
        """Whether all programs came to their end, so that cycles can be compared."""
        return self.cycles is not None and len(whole_cycles(self.rows)) == len(self.rows)


def whole_cycles(rows: Rows) -> list[int]:
    """The cycles of the runs that came to their program's end."""
    return [row.cycles for row in rows if row is not None and row.is_whole and row.cycles]


def entries_of(space: Space, journals: Sequence[Journal]) -> list[Entry]:
    """The machines that have a row, in the order of the space."""
    entries = []
    first: Rows = ()
    for machine in space.machines():
        values = space.values(machine)
        name = identity(values)
        rows = tuple(journal.rows.get(name) for journal in journals)
        first = first or rows
        if any(row is not None for row in rows):
            cost = space.cost.formula.value(values) if space.cost else None
            cycles, rate = compared(space, rows, first)
            entries.append(Entry(machine, values, rows, cost, cycles, rate))
    return entries


def compared(space: Space, rows: Rows, first: Rows) -> tuple[float | None, float | None]:
    """The cycles and the rate of a machine, given its rows and those of machine 1."""
    if not space.is_suite:
        return (rows[0].cycles, rows[0].rate) if rows[0] else (None, None)
    cycles, others = whole_cycles(rows), whole_cycles(first)
    if not len(cycles) == len(others) == len(rows):
        return None, None
    mean = geometric_mean(own / other for own, other in zip(cycles, others, strict=True))
    return mean, 1 / mean


def in_front(entries: list[Entry]) -> list[Entry]:
    """The best front of cost and cycles, the cheapest first."""
    whole = [entry for entry in entries if entry.is_whole and entry.cost is not None]
    points = [(entry.cost or 0.0, entry.cycles or 0) for entry in whole]
    return [whole[place] for place in front_of(points)]


def write_table(path: Path, space: Space, entries: list[Entry], extras: Extras) -> None:
    """Writes the table of the runs. The cost stands beside what it is compared with."""
    has_cost = space.cost is not None and not space.is_suite
    front = numbers_in_front(entries) if has_cost else set()
    names = ["machine", *space.varied, *(["image"] if space.is_suite else [])]
    names += ["end", "cycles", "instructions", "instructions_per_cycle"]
    names += ["mispredicted", "icache_misses", "dcache_misses"]
    names += ["squashed"] if extras.squashed else []
    names += [f"on_{name}" for name in NAMES] if extras.stacks else []
    names += ["cost", "in_front"] if has_cost else []
    lines: list[list[object]] = [[*names, "reason"]]
    for entry in entries:
        for image, row in zip(space.images, entry.rows, strict=True):
            if row is not None:
                fields = machine_fields(entry) + ([image.name] if space.is_suite else [])
                fields += row_fields(row, extras)
                fields += cost_fields(entry, front) if has_cost else []
                lines.append([*fields, row.reason])
    write_csv(path, lines)


def write_means(path: Path, space: Space, entries: list[Entry]) -> None:
    """Writes the table of a suite's machines."""
    front = numbers_in_front(entries) if space.cost else set()
    names: list[object] = ["machine", *space.varied, "relative_cycles"]
    lines: list[list[object]] = [names + (["cost", "in_front"] if space.cost else [])]
    for entry in entries:
        fields = [*machine_fields(entry), decimals(entry.cycles)]
        lines.append(fields + (cost_fields(entry, front) if space.cost else []))
    write_csv(path, lines)


def numbers_in_front(entries: list[Entry]) -> set[int]:
    """The numbers of the machines of the best front."""
    return {entry.machine.number for entry in in_front(entries)}


def machine_fields(entry: Entry) -> list[object]:
    """What a machine is, for a table."""
    return [entry.machine.number, *entry.machine.varied.values()]


def row_fields(row: Row, extras: Extras) -> list[object]:
    """What a run gave, for a table."""
    fields: list[object] = [row.end, row.cycles, row.instructions, decimals(row.rate)]
    fields += [row.mispredicted, row.icache_misses, row.dcache_misses]
    fields += [row.squashed] if extras.squashed else []
    if extras.stacks:
        fields += [None if row.causes is None else row.causes[name] for name in NAMES]
    return fields


def cost_fields(entry: Entry, front: set[int]) -> list[object]:
    """What a machine costs, for a table."""
    return [f"{entry.cost:.12g}", "yes" if entry.machine.number in front else "no"]


def write_csv(path: Path, lines: list[list[object]]) -> None:
    """Writes a table."""
    text = io.StringIO()
    csv.writer(text, lineterminator="\n").writerows(lines)
    write_whole(path, text.getvalue())


def decimals(rate: float | None) -> str:
    """A rate with six places."""
    return "" if rate is None else f"{rate:.6f}"
