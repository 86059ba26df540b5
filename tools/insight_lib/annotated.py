"""The instructions of functions with their counts, between the source lines they stand for."""

from pathlib import Path

from shared_lib.faults import InputFault

from .binutils import NO_LINE, SourceLine, instructions_of, read_source, source_lines
from .elf import Functions
from .functions import by_function
from .rows import Profile, Row, lost, place_text, total_of
from .tables import layout, percent

COUNTS = ["retired", "taken", "mispredicted", "dcache_misses"]
HEADS = ["retired", "taken", "mispred.", "dc miss", "address"]


def annotate(profile: Profile, functions: Functions, image: Path, wanted: str) -> str:
    """The annotated instructions of a function, or of all where no name is given."""
    groups = by_function(profile.rows, functions)
    if wanted and wanted not in groups:
        raise InputFault(f"{profile.name}: no row is in a function {wanted}")
    texts = instructions_of(image)
    addresses = [row.address for row in profile.rows if row.address is not None]
    lines = source_lines(image, addresses)
    total = profile.total["cycles"]
    parts = []
    for name, rows in groups.items():
        if not wanted or name == wanted:
            cycles = total_of(rows)["cycles"]
            parts.append(f"{name}: {cycles:,} {profile.unit}, {percent(cycles, total)} of all\n")
            parts.append(interleaved(profile, rows, texts, lines, image))
    return "\n".join(parts)


def interleaved(
    profile: Profile,
    rows: list[Row],
    texts: dict[int, str],
    lines: dict[int, SourceLine],
    image: Path,
) -> str:
    """The table of some rows, with each source line above its instructions."""
    total = profile.total["cycles"]
    cells = [[profile.unit, "%", *HEADS, "instruction", "lost to"]]
    cells += [cells_of(row, total, texts) for row in rows]
    table = layout(cells, len(HEADS) + 2).splitlines(keepends=True)
    shown = [table[0]]
    before = NO_LINE
    for row, text in zip(rows, table[1:], strict=True):
        line = lines.get(row.address, NO_LINE) if row.address is not None else NO_LINE
        if line not in (before, NO_LINE):
            shown.append(source_text(line, image))
        before = line
        shown.append(text)
    return "".join(shown)


def cells_of(row: Row, total: int, texts: dict[int, str]) -> list[str]:
    """The cells of a row; a count of 0 is left out, but for the first two."""
    counts = row.counts
    text = "" if row.address is None else texts.get(row.address, f".word 0x{row.word:08x}")
    causes = ", ".join(f"{name} {cycles:,}" for name, cycles in lost(counts))
    numbers = [f"{counts[name]:,}" if counts[name] else "" for name in COUNTS]
    cycles = counts["cycles"]
    return [f"{cycles:,}", percent(cycles, total), *numbers, place_text(row), text, causes]


def source_text(line: SourceLine, image: Path) -> str:
    """A source line as it is shown, with its text where the file is there."""
    source = read_source(image, line.file)
    text = source[line.number - 1].strip() if 0 < line.number <= len(source) else ""
    name = Path(line.file).name
    return f"{name}:{line.number}: {text}".rstrip(": ") + "\n"
