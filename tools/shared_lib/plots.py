"""Pictures by matplotlib: each as PNG and as SVG."""

import sys
from collections.abc import Iterator
from pathlib import Path

from .faults import Fault

try:
    import matplotlib

    matplotlib.use("Agg")
    from matplotlib import pyplot
except ImportError:
    matplotlib = None

STYLE = {
    "font.size": 9,
    "axes.titlesize": 10,
    "axes.spines.top": False,
    "axes.spines.right": False,
    "legend.frameon": False,
    "legend.fontsize": 8,
    "legend.title_fontsize": 8,
    "lines.markersize": 4.5,
    "svg.hashsalt": "explore",
}


def need_matplotlib(written: str) -> None:
    """Ends where there is no matplotlib, and says what is written all the same."""
    if matplotlib is None:
        raise Fault(
            f"no pictures: {sys.executable} has no matplotlib (Debian: apt-get install "
            f"python3-matplotlib, for /usr/bin/python3); {written}"
        )


def save(figure, path: Path) -> Iterator[Path]:
    """Writes a picture in both forms."""
    about = {".png": {"Software": None}, ".svg": {"Date": None}}
    for ending, metadata in about.items():
        figure.savefig(path.with_suffix(ending), dpi=200, bbox_inches="tight", metadata=metadata)
        yield path.with_suffix(ending)
    pyplot.close(figure)
