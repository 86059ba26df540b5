"""Tables as text: functions, cycles by cause, and what a change moved."""

from collections import Counter
from collections.abc import Iterable, Sequence

from shared_lib.causes import CAUSES, NAMES

from .elf import Functions
from .functions import by_function
from .rows import Profile, lost, total_of

MOST_CAUSES = 3
MOST_MOVED = 4


def layout(lines: Sequence[Sequence[str]], texts_from: int) -> str:
    """Columns: numbers to the right, and from a place on texts to the left."""
    widths = [max(map(len, column)) for column in zip(*lines, strict=True)]
    rows = []
    for line in lines:
        cells = [
            cell.ljust(width) if place >= texts_from else cell.rjust(width)
            for place, (cell, width) in enumerate(zip(line, widths, strict=True))
        ]
        rows.append("  ".join(cells).rstrip() + "\n")
    return "".join(rows)


def percent(part: int, whole: int) -> str:
    """A part of a whole."""
    return f"{100 * part / whole:.1f}%" if whole else "-"


def ratio(cycles: int, instructions: int) -> str:
    """Cycles for each instruction."""
    return f"{cycles / instructions:.2f}" if instructions else "-"


def lost_text(counts: Counter[str]) -> str:
    """What most cycles were lost to, in percent of these cycles."""
    causes = lost(counts)[:MOST_CAUSES]
    return ", ".join(f"{name} {percent(cycles, counts['cycles'])}" for name, cycles in causes)


def function_table(profile: Profile, functions: Functions) -> str:
    """The functions, the one with the most cycles first, and what their cycles were lost to."""
    total = profile.total
    head = [profile.unit, "%", "retired", "CPI", "mispredicted", "dcache misses", "squashed"]
    lines = [[*head, "function", "lost to"]]
    groups = by_function(profile.rows, functions)
    sums = [(name, total_of(rows)) for name, rows in groups.items()]
    sums.sort(key=lambda pair: (-pair[1]["cycles"], pair[0]))
    for name, counts in [*sums, ("total", total)]:
        cycles = counts["cycles"]
        lines.append(
            [
                f"{cycles:,}",
                percent(cycles, total["cycles"]),
                f"{counts['retired']:,}",
                ratio(cycles, counts["retired"]),
                f"{counts['mispredicted']:,}",
                f"{counts['dcache_misses']:,}",
                f"{counts['squashed']:,}",
                name,
                lost_text(counts),
            ]
        )
    return layout(lines, len(head))


def stack_table(stacks: dict[str, Counter[str]]) -> str:
    """Cycles by cause, a column for each run, and which keys they point to."""
    used = [cause for cause in CAUSES if any(counts[cause.name] for counts in stacks.values())]
    lines = [["", *stacks, "", ""]]
    for name in ("cycles", "retired"):
        lines.append([name, *(f"{counts[name]:,}" for counts in stacks.values()), "", ""])
    for cause in used:
        numbers = [f"{counts[cause.name]:,}" for counts in stacks.values()]
        lines.append([cause.name, *numbers, cause.says, cause.turn])
    names = [line[0] for line in lines]
    wide = max(map(len, names))
    padded = [[name.ljust(wide), *line[1:]] for name, line in zip(names, lines, strict=True)]
    return layout(padded, len(stacks) + 1)


def difference_table(
    old: Profile, new: Profile, old_functions: Functions, new_functions: Functions
) -> str:
    """Which functions and causes a change moved. All differences add up to that of the cycles."""
    before = {name: total_of(rows) for name, rows in by_function(old.rows, old_functions).items()}
    after = {name: total_of(rows) for name, rows in by_function(new.rows, new_functions).items()}
    lines = [[f"old {old.unit}", "new", "difference", "function", "causes"]]
    names = sorted(
        before | after,
        key=lambda name: (-abs(difference_of(before, after, name)), name),
    )
    for name in names:
        own = (before.get(name, Counter()), after.get(name, Counter()))
        lines.append([*change(*own, "cycles"), name, moved_text(*own)])
    totals = (old.total, new.total)
    lines.append([*change(*totals, "cycles"), "total", moved_text(*totals)])
    causes = [["", "", "", "cause", ""]]
    for name in moved(*totals):
        causes.append([*change(*totals, name), name, ""])
    return layout([*lines, *causes], 3)


def difference_of(
    before: dict[str, Counter[str]], after: dict[str, Counter[str]], name: str
) -> int:
    """By how much a function's cycles rose."""
    return after.get(name, Counter())["cycles"] - before.get(name, Counter())["cycles"]


def change(old: Counter[str], new: Counter[str], name: str) -> list[str]:
    """A number before and after, and by how much it rose."""
    return [f"{old[name]:,}", f"{new[name]:,}", f"{new[name] - old[name]:+,}"]


def moved(old: Counter[str], new: Counter[str]) -> list[str]:
    """The causes whose cycles aren't what they were, the most moved first."""
    changed = [name for name in NAMES if new[name] != old[name]]
    return sorted(changed, key=lambda name: -abs(new[name] - old[name]))


def moved_text(old: Counter[str], new: Counter[str]) -> str:
    """What was moved most; the rest in one number, so that the numbers add up."""
    names = moved(old, new)
    shown = names if len(names) <= MOST_MOVED + 1 else names[:MOST_MOVED]
    rest = rise(old, new, [name for name in names if name not in shown])
    texts = [f"{name} {new[name] - old[name]:+,}" for name in shown]
    return ", ".join(texts + ([f"others {rest:+,}"] if len(shown) < len(names) else []))


def rise(old: Counter[str], new: Counter[str], names: Iterable[str]) -> int:
    """By how much some causes rose together."""
    return sum(new[name] - old[name] for name in names)
