"""A trace as one HTML page that needs no other file and no network."""

import json
from collections.abc import Iterable
from dataclasses import dataclass
from itertools import pairwise
from pathlib import Path

from .elf import Functions
from .trace import Record, Trace

FOLDER = Path(__file__).parent / "page"
SCRIPTS = ["trace.js", "view.js", "strip.js", "panel.js", "page.js"]


class Texts:
    """Texts that repeat, each once."""

    def __init__(self) -> None:
        self.all: list[str] = []
        self._places: dict[str, int] = {}

    def place(self, text: str) -> int:
        """Where a text stands."""
        place = self._places.setdefault(text, len(self.all))
        if place == len(self.all):
            self.all.append(text)
        return place


@dataclass(frozen=True)
class Shown:
    """A trace to be shown, with the functions of its image and its title."""

    trace: Trace
    functions: Functions
    title: str


def page_of(*traces: Shown) -> str:
    """The page of a trace, or of two of the same program, one above the other."""
    content = json.dumps([data_of(shown) for shown in traces], separators=(",", ":"))
    page = (FOLDER / "page.html").read_text()
    scripts = "".join((FOLDER / name).read_text() for name in SCRIPTS)
    style = (FOLDER / "page.css").read_text()
    parts = {"/*STYLE*/": style, "/*SCRIPTS*/": scripts, "/*DATA*/": safe(content)}
    for mark, text in parts.items():
        before, found, after = page.partition(mark)
        assert found
        page = before + text + after
    return page


def data_of(shown: Shown) -> dict[str, object]:
    """What the page is given: columns, with cycles as differences, and texts by their places."""
    texts = Texts()
    trace = shown.trace
    records = trace.records
    firsts = [trace.begin, *(record.first for record in records)]
    return {
        "title": shown.title,
        "begin": trace.begin,
        "end": trace.end,
        "first": [later - earlier for earlier, later in pairwise(firsts)],
        "length": [-1 if record.end is None else record.end - record.first for record in records],
        "number": [record.number for record in records],
        "fate": [int(record.fate) for record in records],
        "label": [texts.place(record.label) for record in records],
        "notes": [texts.place(record.notes) for record in records],
        "stages": [texts.place(stage_text(record)) for record in records],
        "producers": list(back_steps(records)),
        "texts": texts.all,
        "functions": [[one.address, one.size, one.name] for one in shown.functions.all],
    }


def stage_text(record: Record) -> str:
    """The stages of an instruction as a text, which repeats: `0 F 5 X 6 C`."""
    return " ".join(f"{first} {name}" for first, name in record.stages)


def back_steps(records: Iterable[Record]) -> Iterable[list[int]]:
    """The producers of each instruction, as steps back in the trace."""
    for place, record in enumerate(records):
        yield [place - producer for producer in record.producers]


def safe(content: str) -> str:
    """JSON that can stand in a script of a page, whatever its texts are."""
    return content.replace("<", "\\u003c").replace("\u2028", "\\u2028").replace("\u2029", "\\u2029")
