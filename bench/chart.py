#!/usr/bin/env python3
"""Draws the speeds of `compiled` that bench/results has of a host: bench/chart.py [--host NAME] [--commit COMMIT] [--out PATH]

A bar for each command and machine: million steps or cycles a second, by a logarithmic scale, with its number. The picture
is bench/results/speeds.png (and .svg) unless --out names another; docs/PERFORMANCE.md shows it. It needs matplotlib.
"""
import argparse
import csv
import sys
from pathlib import Path

REPOSITORY = Path(__file__).resolve().parent.parent
RESULTS = REPOSITORY / "bench" / "results"
sys.path.insert(0, str(REPOSITORY / "tools"))

from shared_lib.faults import Fault
from shared_lib.plots import STYLE, matplotlib, need_matplotlib, save

ALONE, ONE_THREAD, TWO_THREADS = "#4c78a8", "#54a24b", "#e45756"
MACHINES = ("plain", "wide", "deep")


def rows_of(name: str, host: str, commit: str) -> list[dict[str, str]]:
    """The rows of a file that are of `compiled`, of the gate's program at this commit on this host."""
    with (RESULTS / name).open(newline="") as file:
        wanted = {"host": host, "commit": commit, "program": "gate", "image": "compiled"}
        return [row for row in csv.DictReader(file) if all(row[key] == value for key, value in wanted.items())]


def speeds(host: str, commit: str) -> dict[str, tuple[float, str]]:
    """Of each bar's label the millions a second, the greatest where there are several, and its colour."""
    shown: dict[str, tuple[float, str]] = {}
    for command in ("func", "back"):
        for row in rows_of("func.csv", host, commit):
            if row["command"] == command:
                shown[command] = (int(row["steps"]) / float(row["processor_seconds"]) / 1e6, ALONE)
    runs = rows_of("run.csv", host, commit)
    for command, threads in (("run", "1"), ("inorder", "1"), ("run", "2")):
        for machine in MACHINES:
            made = [
                int(row["cycles"]) / float(row["milliseconds"]) / 1e3
                for row in runs
                if (row["command"], row["threads"], row["machine"]) == (command, threads, machine)
            ]
            if made:
                label = f"{command}, {machine}" + (", two threads" if threads == "2" else "")
                shown[label] = (max(made), TWO_THREADS if threads == "2" else ONE_THREAD)
    return shown


def draw(shown: dict[str, tuple[float, str]], path: Path) -> list[Path]:
    """Draws the bars, and gives the files."""
    need_matplotlib("nothing is written")
    with matplotlib.rc_context(STYLE):
        figure, axes = matplotlib.pyplot.subplots(figsize=(6.4, 0.26 * len(shown) + 0.7))
        bars = axes.barh(list(shown), [speed for speed, _ in shown.values()], color=[colour for _, colour in shown.values()])
        axes.bar_label(bars, [f"{float(f'{speed:.2g}'):g}" for speed, _ in shown.values()], padding=3, fontsize=8)
        axes.invert_yaxis()
        axes.set_xscale("log")
        axes.set_xlim(1, 400)
        axes.set_xticks([1, 10, 100], ["1", "10", "100"])
        axes.set_xlabel("million steps (func, back) or cycles (all others) a second")
        return list(save(figure, path))


def main() -> int:
    """Draws the picture."""
    parser = argparse.ArgumentParser(prog="chart.py", description=__doc__.split("\n", maxsplit=1)[0])
    parser.add_argument("--host", default="cascade-lake", help="whose figures (cascade-lake)")
    parser.add_argument("--commit", default="8ff5dd1", help="of which program, as the rows name it (8ff5dd1)")
    parser.add_argument("--out", type=Path, default=RESULTS / "speeds.png", help="the picture (bench/results/speeds.png)")
    options = parser.parse_args()
    try:
        shown = speeds(options.host, options.commit)
        if not shown:
            raise Fault(f"no figures of {options.host} at {options.commit} in bench/results")
        for path in draw(shown, options.out):
            print(path)
    except Fault as fault:
        print(f"chart.py: {fault}", file=sys.stderr)
        return 1
    return 0


if __name__ == "__main__":
    sys.exit(main())
