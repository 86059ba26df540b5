"""The space of machines that an input describes."""

import itertools
import math
from collections.abc import Iterator, Mapping
from dataclasses import dataclass
from pathlib import Path

from .formula import Formula
from .keys import DEFAULTS, Value

Lists = Mapping[str, tuple[Value, ...]]


@dataclass(frozen=True)
class Image:
    """An image: its name, as the input writes it, and its file."""

    name: str
    path: Path


@dataclass(frozen=True)
class Machine:
    """A machine of the space: its number, from 1, and its values of the keys that vary."""

    number: int
    varied: dict[str, Value]


@dataclass(frozen=True)
class Options:
    """The options of `sweep` that change what a run gives; None leaves an option out."""

    cycles: int | None = None
    output: int | None = None
    input: Path | None = None


@dataclass(frozen=True)
class Extras:
    """What is wanted beside the numbers of `sweep`."""

    squashed: bool = False
    stacks: bool = False

    @property
    def commands(self) -> tuple[str, ...]:
        """The commands beside `sweep` that not every simulator knows."""
        return ("stack",) if self.stacks else ()


@dataclass(frozen=True)
class Cost:
    """What a machine costs."""

    formula: Formula
    label: str
    unit: str

    @property
    def axis(self) -> str:
        """The name of an axis of costs."""
        return f"{self.label} ({self.unit})" if self.unit else self.label


@dataclass(frozen=True)
class Axis:
    """What a picture goes by: some keys' values, or a formula's."""

    label: str
    keys: tuple[str, ...] = ()
    formula: Formula | None = None

    def place(self, values: Mapping[str, Value]) -> Value | float:
        """Where a machine stands on the axis."""
        if self.formula is not None:
            return self.formula.value(values)
        if len(self.keys) == 1:
            return values[self.keys[0]]
        return ", ".join(str(values[key]) for key in self.keys)


@dataclass(frozen=True)
class Picture:
    """A picture: of which kind, of what, and of which machines."""

    kind: str
    name: str
    title: str
    axes: dict[str, Axis]
    at: dict[str, Value]
    of: str
    knee: float


@dataclass(frozen=True)
class Space:
    """What is explored: an image, or a suite of them, on the machines of a grid."""

    path: Path
    images: tuple[Image, ...]
    is_suite: bool
    options: Options
    set: dict[str, Value]
    grid: Lists
    together: tuple[Lists, ...]
    cost: Cost | None
    pictures: tuple[Picture, ...] = ()
    is_drawn: bool = True

    @property
    def varied(self) -> list[str]:
        """The keys that vary, in the order of the input."""
        return [key for lists in (self.grid, *self.together) for key in lists]

    @property
    def size(self) -> int:
        """How many machines there are."""
        return math.prod(len(axis) for axis in self._axes())

    @property
    def run_count(self) -> int:
        """How many runs there are: one of each image on each machine."""
        return self.size * len(self.images)

    @property
    def title(self) -> str:
        """What is run, in a few words."""
        return f"{len(self.images)} images" if self.is_suite else self.images[0].path.name

    @property
    def run_name(self) -> str:
        """What a row stands for, as it is counted: of one image each machine has one."""
        return "runs" if self.is_suite else "machines"

    def machines(self) -> Iterator[Machine]:
        """All machines in order: the last list of the input changes first."""
        for number, parts in enumerate(itertools.product(*self._axes()), 1):
            varied = dict(pair for part in parts for pair in part)
            yield Machine(number, varied)

    def values(self, machine: Machine) -> dict[str, Value]:
        """A machine's values of all keys."""
        return DEFAULTS | self.set | machine.varied

    def _axes(self) -> list[list[tuple[tuple[str, Value], ...]]]:
        """The lists that are combined: each a list of what is set together."""
        axes = []
        for lists in [*({key: values} for key, values in self.grid.items()), *self.together]:
            rows = zip(*lists.values(), strict=True)
            axes.append([tuple(zip(lists, row, strict=True)) for row in rows])
        return axes
