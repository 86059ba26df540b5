"""Bars of cycles by cause, with the numbers beside them."""

import re
from collections.abc import Mapping, Sequence

from .causes import CAUSES, Cause

BAR = 0.66
LEAST_SHARE = 0.05
ROW = 0.19
COLUMN = 0.62
HEAD = 0.52
SMALL = 7.5


def used_causes(stacks: Mapping[str, Mapping[str, float]]) -> list[Cause]:
    """The causes that any of the bars has."""
    return [cause for cause in CAUSES if any(stack[cause.name] for stack in stacks.values())]


def number(value: float) -> str:
    """A number of a bar: whole cycles, or cycles for an instruction."""
    if value == 0:
        return ""
    return f"{value:,.0f}" if isinstance(value, int) else f"{value:.2f}"


def broken(name: str) -> str:
    """A name on several lines."""
    return re.sub(r"[ .]", "\n", name)


def draw_bars(
    figure,
    stacks: Mapping[str, Mapping[str, float]],
    label: str,
    title: str,
    notes: Sequence[str] = (),
) -> None:
    """A bar for each name, from its cycles by cause, and the table of all numbers beside them.

    Notes stand below the title.
    """
    causes = used_causes(stacks)
    wide = 0.9 + 0.85 * len(stacks)
    table_wide = 1.1 + COLUMN * len(stacks) + 2.4
    tall = max(2.9, ROW * (len(causes) + 1) + HEAD + 0.3)
    figure.set_size_inches(wide + table_wide, tall)
    share = wide / (wide + table_wide)
    whole = wide + table_wide
    axes = figure.add_axes((0.7 / whole, 0.17, (wide - 0.85) / whole, 0.72))
    axes.set_title(title, loc="left", weight="bold", pad=6 + 11 * len(notes))
    style = {"xycoords": "axes fraction", "textcoords": "offset points", "va": "bottom"}
    axes.annotate("\n".join(notes), (0, 1), (0, 4), fontsize=8, color="#444444", **style)
    most = max(sum(stack[cause.name] for cause in causes) for stack in stacks.values())
    for place, stack in enumerate(stacks.values()):
        draw_bar(axes, place, stack, causes, most)
    axes.set_xticks(range(len(stacks)), list(map(broken, stacks)))
    axes.set_xlim(-0.6, len(stacks) - 0.4)
    axes.set_ylim(0, most * 1.08)
    axes.set_ylabel(label)
    axes.yaxis.set_major_formatter(lambda value, _: f"{value:,.12g}")
    axes.grid(axis="y", color="#e3e6ea", linewidth=0.6)
    axes.set_axisbelow(True)
    write_numbers(figure, stacks, causes, share, table_wide, tall)


def draw_bar(
    axes, place: int, stack: Mapping[str, float], causes: Sequence[Cause], most: float
) -> None:
    """One bar, from the bottom up, with its numbers where they have room."""
    bottom: float = 0
    for cause in causes:
        cycles = stack[cause.name]
        axes.bar(place, cycles, BAR, bottom=bottom, color=cause.colour, linewidth=0)
        if cycles > LEAST_SHARE * most:
            middle = bottom + cycles / 2
            axes.text(place, middle, number(cycles), ha="center", va="center", fontsize=SMALL)
        bottom += cycles
    text = number(bottom)
    axes.text(place, bottom, text, ha="center", va="bottom", fontsize=8.5, weight="bold")


def write_numbers(
    figure,
    stacks: Mapping[str, Mapping[str, float]],
    causes: Sequence[Cause],
    left: float,
    wide: float,
    tall: float,
) -> None:
    """The table, in the order of the bars' parts from the top down."""
    table = figure.add_axes((left, 0, 1 - left, 1))
    table.set_axis_off()
    table.set_xlim(0, wide)
    table.set_ylim(tall, 0)
    ends = [1.1 + COLUMN * (place + 1) for place in range(len(stacks))]
    for end, name in zip(ends, stacks, strict=True):
        style = {"fontsize": SMALL - 0.5, "weight": "bold", "linespacing": 1.05}
        table.text(end, HEAD - 0.16, broken(name), ha="right", va="bottom", **style)
    for row, cause in enumerate(reversed(causes)):
        y = HEAD + ROW * row + 0.1
        table.bar(0.2, -0.12, 0.12, bottom=y + 0.02, color=cause.colour)
        table.text(0.34, y, cause.name, fontsize=SMALL + 0.5, weight="bold")
        for end, stack in zip(ends, stacks.values(), strict=True):
            table.text(end, y, number(stack[cause.name]), ha="right", fontsize=SMALL)
        table.text(ends[-1] + 0.18, y, cause.turn, fontsize=SMALL, color="#57606a")
    y = HEAD + 0.14 + ROW * len(causes)
    table.text(0.34, y, "all", fontsize=SMALL + 0.5, weight="bold")
    for end, stack in zip(ends, stacks.values(), strict=True):
        whole = sum(stack[cause.name] for cause in causes)
        table.text(end, y, number(whole), ha="right", fontsize=SMALL, weight="bold")
