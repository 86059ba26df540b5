"""Bars of several runs, by what their cycles were spent on."""

from collections import Counter
from collections.abc import Iterator, Mapping
from pathlib import Path

from shared_lib.bars import draw_bars
from shared_lib.causes import NAMES
from shared_lib.plots import STYLE, matplotlib, need_matplotlib, save

TITLE = "Where the cycles went"


def have_equal_work(stacks: Mapping[str, Counter[str]]) -> bool:
    """Whether all runs retired as many instructions: then cycles for each are compared."""
    retired = {counts["retired"] for counts in stacks.values()}
    return len(retired) == 1 and 0 not in retired


def draw_stacks(stacks: Mapping[str, Counter[str]], path: Path) -> Iterator[Path]:
    """Draws the bars as PNG and SVG, and gives the files."""
    need_matplotlib("the numbers stand above")
    label = "cycles for each instruction" if have_equal_work(stacks) else "cycles"
    shown: dict[str, dict[str, float]] = {}
    for name, counts in stacks.items():
        shown[name] = {cause: counts[cause] for cause in NAMES}
        if have_equal_work(stacks):
            shown[name] = {cause: counts[cause] / counts["retired"] for cause in NAMES}
    with matplotlib.rc_context(STYLE):
        figure = matplotlib.pyplot.figure()
        draw_bars(figure, shown, label, TITLE)
        yield from save(figure, path)
