"""Rows in callgrind's format, for callgrind_annotate and KCachegrind."""

from collections.abc import Iterable, Iterator
from pathlib import Path

from shared_lib.causes import NAMES

from .binutils import NO_LINE, SourceLine, source_lines
from .elf import Functions
from .functions import by_function
from .rows import Profile, Row

EVENTS = {
    "Cycles": "cycles",
    "Retired": "retired",
    "Fetched": "fetched",
    "Squashed": "squashed",
    "Mispredicted": "mispredicted",
    "ICacheMisses": "icache_misses",
    "DCacheAccesses": "dcache_accesses",
    "DCacheMisses": "dcache_misses",
    "L2Misses": "l2_misses",
} | {f"on_{name}": name for name in NAMES}
ALWAYS = ("Cycles", "Retired")
UNKNOWN = "???"


def callgrind_text(profile: Profile, functions: Functions, image: Path) -> str:
    """The content of a callgrind file. Events that never happened are left out."""
    total = profile.total
    events = {
        event: column for event, column in EVENTS.items() if event in ALWAYS or total[column] > 0
    }
    addresses = [row.address for row in profile.rows if row.address is not None]
    lines = source_lines(image, addresses)
    parts = ["# callgrind format\nversion: 1\ncreator: tools/profile\n"]
    parts.append(f"cmd: {image.name}: {profile.name}\npositions: instr line\n")
    parts.append(f"events: {' '.join(events)}\n")
    parts.append(f"summary: {numbers(total[column] for column in events.values())}\n\n")
    parts.append(f"ob={image}\n")
    for name, rows in by_function(profile.rows, functions).items():
        parts += function_part(name, rows, lines, list(events.values()))
    return "".join(parts)


def function_part(
    name: str, rows: list[Row], lines: dict[int, SourceLine], columns: list[str]
) -> Iterator[str]:
    """The lines of a function. What was inlined from another file is named so."""
    own = file_of(line_of(rows[0], lines))
    yield f"\nfl={own}\nfn={name}\n"
    current = own
    for row in rows:
        line = line_of(row, lines)
        if file_of(line) != current:
            current = file_of(line)
            yield f"{'fe' if current == own else 'fi'}={current}\n"
        place = f"{row.address or 0:#x} {line.number}"
        yield f"{place} {numbers(row.counts[column] for column in columns)}\n"


def line_of(row: Row, lines: dict[int, SourceLine]) -> SourceLine:
    """The source line of a row."""
    return NO_LINE if row.address is None else lines.get(row.address, NO_LINE)


def file_of(line: SourceLine) -> str:
    """The source file of a line, as callgrind writes one that isn't known."""
    return line.file or UNKNOWN


def numbers(values: Iterable[int]) -> str:
    """Numbers with blanks between them."""
    return " ".join(map(str, values))
