"""Reading a pipeline trace in the format of Kanata, version 0004."""

from collections.abc import Callable, Iterable
from dataclasses import dataclass, field
from enum import IntEnum
from pathlib import Path

from shared_lib.faults import InputFault

HEAD = "Kanata\t0004"
MOST_FIELDS = 3  # after the word; the last of a text may have tabs
MOST_SHOWN = 60


class Fate(IntEnum):
    """How an instruction's way ended, or that it is still open at the end of the trace."""

    LEFT = 0
    SQUASHED = 1
    OPEN = 2


@dataclass(slots=True)
class Record:
    """An instruction under way.

    `number` is that of the program's instruction, `first` the cycle of its first stage, `end` the
    cycle in which it was gone. A stage is its first cycle, from `first` on, and its name. Producers
    are places in the trace.
    """

    number: int
    first: int
    end: int | None = None
    fate: Fate = Fate.OPEN
    label: str = ""
    notes: str = ""
    stages: list[tuple[int, str]] = field(default_factory=list)
    producers: list[int] = field(default_factory=list)


@dataclass
class Trace:
    """A trace: its first and its last cycle, and its instructions in the order of fetch."""

    begin: int = 0
    end: int = 0
    records: list[Record] = field(default_factory=list)

    def count(self, fate: Fate) -> int:
        """How many instructions ended in one way."""
        return sum(record.fate == fate for record in self.records)


class Reader:
    """Reads the lines of a trace, each of them by its first word."""

    def __init__(self) -> None:
        self.trace = Trace()
        self._words: dict[str, Callable[..., None]] = {
            "C=": self._start,
            "C": self._pass,
            "I": self._introduce,
            "L": self._write,
            "S": self._begin_stage,
            "E": lambda *_: None,
            "R": self._end,
            "W": self._wait_for,
        }

    def read(self, line: str) -> None:
        """Reads one line. A ValueError, TypeError or IndexError says that it is wrong."""
        word, *fields = line.split("\t", MOST_FIELDS)
        if word not in self._words:
            raise ValueError
        self._words[word](*fields)

    def _start(self, cycle: str) -> None:
        if self.trace.records:
            raise ValueError
        self.trace.begin = self.trace.end = int(cycle)

    def _pass(self, cycles: str) -> None:
        if int(cycles) < 0:
            raise ValueError
        self.trace.end += int(cycles)

    def _introduce(self, place: str, number: str, _thread: str) -> None:
        if int(place) != len(self.trace.records):
            raise ValueError
        self.trace.records.append(Record(int(number), self.trace.end))

    def _write(self, place: str, pane: str, text: str) -> None:
        record = self._record(place)
        if pane == "0":
            record.label += text
        else:
            record.notes += text

    def _begin_stage(self, place: str, lane: str, name: str) -> None:
        record = self._record(place)
        if record.end is not None or name.split() != [name]:
            raise ValueError
        if lane == "0":
            record.stages.append((self.trace.end - record.first, name))

    def _end(self, place: str, _number: str, fate: str) -> None:
        record = self._record(place)
        if record.end is not None:
            raise ValueError
        record.end = self.trace.end
        record.fate = Fate.LEFT if fate == "0" else Fate.SQUASHED

    def _wait_for(self, place: str, producer: str, _kind: str) -> None:
        if not 0 <= int(producer) < int(place):
            raise ValueError
        self._record(place).producers.append(int(producer))

    def _record(self, place: str) -> Record:
        if int(place) < 0:
            raise ValueError
        return self.trace.records[int(place)]


def read_trace(lines: Iterable[str], name: str) -> Trace:
    """The trace that lines tell; `name` is that of the file, for faults."""
    reader = Reader()
    is_empty = True
    for number, line in enumerate(lines, 1):
        text = line.rstrip("\r\n")
        if is_empty:
            if text != HEAD:
                raise InputFault(f"{name}: no trace in the format Kanata, version 0004")
            is_empty = False
        elif text:
            try:
                reader.read(text)
            except (ValueError, TypeError, IndexError):
                shown = text if len(text) <= MOST_SHOWN else f"{text[:MOST_SHOWN]}..."
                raise InputFault(f"{name}: line {number}: {shown!r} can't be read") from None
    if is_empty:
        raise InputFault(f"{name} is empty")
    return reader.trace


def read_trace_file(path: Path) -> Trace:
    """The trace of a file."""
    with path.open(encoding="utf-8", errors="replace") as file:
        return read_trace(file, str(path))
