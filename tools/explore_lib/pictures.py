"""The pictures, by matplotlib: each as PNG and as SVG."""

from collections.abc import Callable, Iterator, Sequence
from functools import partial
from pathlib import Path
from statistics import fmean

from shared_lib.bars import draw_bars
from shared_lib.causes import NAMES
from shared_lib.faults import Fault
from shared_lib.plots import STYLE, matplotlib, need_matplotlib, save

from .answers import Row
from .front import knee_of
from .keys import Value
from .space import Axis, Picture, Space
from .table import Entry, in_front

if matplotlib is not None:
    from matplotlib import pyplot
    from matplotlib.patches import Rectangle
    from matplotlib.ticker import FuncFormatter, LogLocator, NullLocator

COLOURS = ["#0072B2", "#D55E00", "#009E73", "#CC79A7", "#E69F00", "#56B4E9", "#000000", "#999999"]
MARKERS = "osD^vP*X"
MOST_TICKS = 12
MOST_CELLS = 200
WIDE = 8
SUM: dict[str, Callable[[list[float]], float]] = {"best": max, "mean": fmean, "worst": min}

Place = Value | float


def draw(space: Space, entries: Sequence[Entry], folder: Path) -> Iterator[Path]:
    """Draws all pictures of an input, and gives their files."""
    need_matplotlib("the table is written")
    with matplotlib.rc_context(STYLE):
        for picture in space.pictures:
            chosen = [entry for entry in entries if is_chosen(picture, entry)]
            ran = [entry for entry in chosen if not entry.is_refused]
            if not any(is_shown(picture, entry) for entry in ran):
                raise Fault(f"no picture {picture.name}: {lack(space, picture)}")
            figure = KINDS[picture.kind](space, picture, ran)
            yield from save(figure, folder / picture.name)


def is_chosen(picture: Picture, entry: Entry) -> bool:
    """Whether a picture shows a machine."""
    return all(entry.values[name] == value for name, value in picture.at.items())


def is_shown(picture: Picture, entry: Entry) -> bool:
    """Whether a machine that was chosen has a place in a picture."""
    return entry.is_whole if picture.kind == "front" else entry.rate is not None


def lack(space: Space, picture: Picture) -> str:
    """Why a picture has nothing to show."""
    if space.is_suite:
        return "machine 1 or each of its machines didn't come to all programs' ends"
    what = "came to the program's end" if picture.kind == "front" else "ran"
    return f"none of its machines {what}"


def left_out_note(space: Space, ran: Sequence[Entry], shown: Sequence[Entry]) -> str:
    """How many machines that ran a picture doesn't show."""
    count = len(ran) - len(shown)
    what = "all programs' ends" if space.is_suite else "the program's end"
    return f"left out: {count} machines that didn't come to {what}" if count else ""


def compared_label(space: Space, of_one: str, of_suite: str) -> str:
    """The name of an axis of what is compared: of one image, or of a suite."""
    if not space.is_suite:
        return of_one
    return f"{of_suite} against machine 1\n(geometric mean of {space.title})"


def rate_label(space: Space) -> str:
    """The name of an axis of rates."""
    return compared_label(space, "instructions per cycle", "speed")


def places(axis: Axis, entries: Sequence[Entry]) -> list[Place]:
    """The places on an axis: numbers by size, texts in the order of the input."""
    found = list(dict.fromkeys(axis.place(entry.values) for entry in entries))
    if any(isinstance(place, str) for place in found):
        return found
    return sorted(found)


def shared_points(x: Axis, y: Axis, entries: Sequence[Entry]) -> dict[tuple, list[float]]:
    """The rates of the machines at each pair of places."""
    rates: dict[tuple, list[float]] = {}
    for entry in entries:
        pair = (x.place(entry.values), y.place(entry.values))
        rates.setdefault(pair, []).append(entry.rate or 0.0)
    return rates


def written(place: Place) -> str:
    """A place as it is written in a picture."""
    return place if isinstance(place, str) else f"{place:,.6g}" if place < 1e6 else f"{place:,.0f}"


def scale(places_: Sequence[Place]) -> list[float]:
    """Where the places of an axis stand: texts side by side."""
    if any(isinstance(place, str) for place in places_):
        return [float(number) for number in range(len(places_))]
    return [float(place) for place in places_]


def begin(picture: Picture, notes: Sequence[str], size: tuple[float, float]):
    """A figure with its title, and what has to be known to read it below the title."""
    figure, axes = pyplot.subplots(figsize=size)
    notes = [note for note in notes if note]
    axes.set_title(picture.title, loc="left", weight="bold", pad=8 + 11 * len(notes))
    axes.annotate(
        "\n".join(notes),
        (0, 1),
        xytext=(0, 6),
        xycoords="axes fraction",
        textcoords="offset points",
        fontsize=8,
        color="#444444",
        va="bottom",
    )
    return figure, axes


def chosen_note(picture: Picture, shared: dict[tuple, list[float]] | None = None) -> str:
    """Which machines a picture shows, and how those that share a point were summed up."""
    parts = [f"{name} = {value}" for name, value in picture.at.items()]
    counts = {len(rates) for rates in (shared or {}).values()}
    if max(counts, default=1) > 1:
        low, high = min(counts), max(counts)
        parts += [f"{picture.of} of {high if low == high else f'{low} to {high}'} machines a point"]
    return "; ".join(parts)


def x_axis(axes, label: str, places_: Sequence[Place]) -> None:
    """An axis whose ticks are the places, on a scale of doublings where they go far apart."""
    at = scale(places_)
    if not isinstance(places_[0], str) and at[0] > 0 and at[-1] >= WIDE * at[0]:
        axes.set_xscale("log", base=2)
    step = -(-len(at) // MOST_TICKS)
    axes.set_xticks(at[::step], [written(place) for place in places_[::step]])
    axes.xaxis.set_minor_locator(NullLocator())
    axes.set_xlabel(label)


def draw_lines(space: Space, picture: Picture, ran: Sequence[Entry]):
    """A key against the rate, with a line for each value of a second."""
    entries = [entry for entry in ran if is_shown(picture, entry)]
    x, lines = picture.axes["x"], picture.axes["lines"]
    shared = shared_points(x, lines, entries)
    rates = {pair: SUM[picture.of](part) for pair, part in shared.items()}
    note = f"ring: the first point within {picture.knee:g} percent of its line's highest"
    notes = [chosen_note(picture, shared), left_out_note(space, ran, entries), note]
    figure, axes = begin(picture, notes, (4.6, 3.4))
    all_x, all_lines = places(x, entries), places(lines, entries)
    at = dict(zip(all_x, scale(all_x), strict=True))
    for number, line in enumerate(all_lines):
        there = [place for place in all_x if (place, line) in rates]
        heights = [rates[place, line] for place in there]
        draw_line(axes, number, written(line), [at[place] for place in there], heights)
        knee = knee_of(heights, picture.knee)
        ring = {"mfc": "none", "ms": 13, "mew": 0.9, "clip_on": False}
        axes.plot(at[there[knee]], heights[knee], "o", color=colour_of(number), **ring)
    x_axis(axes, x.label, all_x)
    axes.set_ylim(bottom=0)
    axes.set_ylabel(rate_label(space))
    axes.grid(axis="y", color="#dddddd", linewidth=0.6)
    axes.set_axisbelow(True)
    put_legend(axes, lines)
    return figure


def draw_line(axes, number: int, name: str, across: list[float], heights: list[float]) -> None:
    """One line; later ones are slimmer, so that lines that coincide are all seen."""
    slim = max(1.0 - 0.14 * (number % len(COLOURS)), 0.45)
    axes.plot(
        across,
        heights,
        "-" if number < len(COLOURS) else "--",
        label=name,
        color=colour_of(number),
        marker=MARKERS[number % len(MARKERS)],
        linewidth=2.4 * slim,
        markersize=7.0 * slim,
    )


def colour_of(number: int) -> str:
    """The colour of a line or a group."""
    return COLOURS[number % len(COLOURS)]


def put_legend(axes, axis: Axis | None) -> None:
    """The legend, beside the picture."""
    title = axis.label.replace(", ", ",\n") if axis else None
    axes.legend(title=title, loc="upper left", bbox_to_anchor=(1.01, 1), alignment="left")


def draw_map(space: Space, picture: Picture, ran: Sequence[Entry]):
    """A heat map of two keys."""
    entries = [entry for entry in ran if is_shown(picture, entry)]
    x, y = picture.axes["x"], picture.axes["y"]
    shared = shared_points(x, y, entries)
    rates = {pair: SUM[picture.of](part) for pair, part in shared.items()}
    note = f"framed: within {picture.knee:g} percent of the highest"
    across, up = places(x, entries), places(y, entries)
    size = (2.2 + 0.55 * max(len(across), 4), 1.3 + 0.38 * max(len(up), 4))
    notes = [chosen_note(picture, shared), left_out_note(space, ran, entries), note]
    figure, axes = begin(picture, notes, size)
    cells = [[rates.get((column, row), float("nan")) for column in across] for row in up]
    colours = matplotlib.colormaps["cividis"].with_extremes(bad="#e5e5e5")
    image = axes.imshow(cells, cmap=colours, origin="lower", aspect="auto")
    axes.set_xticks(range(len(across)), [written(place) for place in across])
    axes.set_yticks(range(len(up)), [written(place) for place in up])
    axes.set_xlabel(x.label)
    axes.set_ylabel(y.label)
    axes.spines[:].set_visible(False)
    axes.tick_params(length=0)
    write_cells(axes, cells, picture.knee)
    bar = figure.colorbar(image, ax=axes, pad=0.03)
    bar.set_label(rate_label(space))
    bar.outline.set_visible(False)
    return figure


def write_cells(axes, cells: Sequence[Sequence[float]], percent: float) -> None:
    """Writes the rates into a heat map, and frames the highest."""
    rates = [rate for row in cells for rate in row if rate == rate]
    low, high = min(rates), max(rates)
    for up, row in enumerate(cells):
        for across, rate in enumerate(row):
            if len(rates) <= MOST_CELLS:
                is_dark = rate < low + 0.55 * (high - low)
                text = f"{rate:.2f}" if rate == rate else "–"
                colour = "white" if is_dark and rate == rate else "black"
                axes.text(across, up, text, ha="center", va="center", fontsize=7.5, color=colour)
            if rate >= high * (1 - percent / 100):
                corner = (across - 0.46, up - 0.46)
                frame = Rectangle(corner, 0.92, 0.92, fill=False, color="#D55E00", linewidth=1.6)
                axes.add_patch(frame)


def draw_front(space: Space, picture: Picture, ran: Sequence[Entry]):
    """Cost against cycles, with the best front."""
    whole = [entry for entry in ran if is_shown(picture, entry)]
    front = in_front(whole)
    notes = [
        chosen_note(picture),
        left_out_note(space, ran, whole),
        *knee_notes(space, picture, front),
    ]
    figure, axes = begin(picture, notes, (5.2, 3.8))
    for number, (label, part) in enumerate(groups(picture, whole)):
        costs, cycles = costs_and_cycles(part)
        axes.scatter(
            costs,
            cycles,
            s=12,
            alpha=0.65,
            linewidths=0,
            label=label,
            color=colour_of(number),
            marker=MARKERS[number % len(MARKERS)],
        )
    costs, cycles = costs_and_cycles(front)
    axes.step(costs, cycles, where="post", color="black", linewidth=0.9)
    axes.plot(costs, cycles, "o", mfc="none", color="black", ms=5.5, label="best front")
    if front:
        knee = front_knee(picture, front)
        axes.plot(knee.cost, knee.cycles, "o", mfc="none", color="black", ms=12, label="knee")
    costs, cycles = costs_and_cycles(whole)
    number_axis(axes, axes.xaxis, costs)
    number_axis(axes, axes.yaxis, cycles)
    axes.set_xlabel(space.cost.axis if space.cost else "")
    axes.set_ylabel(compared_label(space, "cycles", "cycles"))
    axes.grid(color="#e5e5e5", linewidth=0.6)
    axes.set_axisbelow(True)
    put_legend(axes, picture.axes.get("lines"))
    return figure


def groups(picture: Picture, entries: Sequence[Entry]) -> list[tuple[str, list[Entry]]]:
    """The machines of a scatter by their colours."""
    axis = picture.axes.get("lines")
    if axis is None:
        return [("machines", list(entries))]
    return [
        (written(place), [entry for entry in entries if axis.place(entry.values) == place])
        for place in places(axis, entries)
    ]


def costs_and_cycles(entries: Sequence[Entry]) -> tuple[list[float], list[float]]:
    """What a scatter shows."""
    return [entry.cost or 0.0 for entry in entries], cycle_list(entries)


def cycle_list(entries: Sequence[Entry]) -> list[float]:
    """The cycles of machines that ran."""
    return [entry.cycles or 0 for entry in entries]


def front_knee(picture: Picture, front: Sequence[Entry]) -> Entry:
    """The cheapest machine within some percent of the fewest cycles."""
    most = min(cycle_list(front)) * (1 + picture.knee / 100)
    return next(entry for entry in front if (entry.cycles or 0) <= most)


def knee_notes(space: Space, picture: Picture, front: Sequence[Entry]) -> list[str]:
    """What the knee is, and which machine."""
    if not front:
        return []
    knee = front_knee(picture, front)
    values = [f"{name} {value}" for name, value in knee.machine.varied.items()]
    lines = [f"knee: the cheapest within {picture.knee:g} percent of the fewest cycles, machine"]
    lines[0] += f" {knee.machine.number}:"
    for first in range(0, len(values), 4):
        lines += [", ".join(values[first : first + 4])]
    return lines


def number_axis(axes, axis, values: Sequence[float]) -> None:
    """An axis of numbers, on a logarithmic scale where they go far apart."""
    if values and min(values) > 0 and max(values) >= WIDE * min(values):
        (axes.set_xscale if axis is axes.xaxis else axes.set_yscale)("log")
        axis.set_major_locator(LogLocator(subs=(1, 2, 5)))
    axis.set_major_formatter(FuncFormatter(lambda value, _: f"{value:,.12g}"))
    axis.set_minor_locator(NullLocator())


def draw_stacks(space: Space, picture: Picture, ran: Sequence[Entry]):
    """Bars of cycles for each instruction by cause, one for each place of an axis."""
    entries = [entry for entry in ran if is_shown(picture, entry)]
    x = picture.axes["x"]
    shared = {place: at_place(x, place, entries) for place in places(x, entries)}
    stacks = {written(place): stack_of(picture, own) for place, own in shared.items()}
    label = "cycles for each instruction"
    if space.is_suite:
        label += f"\n(mean of {space.title})"
    counts: dict[tuple, list[float]] = {
        (place,): [entry.rate or 0.0 for entry in own] for place, own in shared.items()
    }
    notes = [x.label, chosen_note(picture, counts), left_out_note(space, ran, entries)]
    figure = pyplot.figure()
    draw_bars(figure, stacks, label, picture.title, [note for note in notes if note])
    return figure


def at_place(axis: Axis, place: Place, entries: Sequence[Entry]) -> list[Entry]:
    """The machines that share a place of an axis."""
    return [entry for entry in entries if axis.place(entry.values) == place]


def stack_of(picture: Picture, entries: Sequence[Entry]) -> dict[str, float]:
    """The bar that stands for the machines of a place."""
    if picture.of != "mean":
        choose = max if picture.of == "best" else min
        entries = [choose(entries, key=lambda entry: entry.rate or 0.0)]
    rows = [row for entry in entries for row in entry.rows if row is not None]
    return {name: fmean(map(partial(cycles_for_each, name), rows)) for name in NAMES}


def cycles_for_each(name: str, row: Row) -> float:
    """The cycles of a cause for each instruction of a run."""
    return (row.causes or {}).get(name, 0) / (row.instructions or 1)


KINDS = {"lines": draw_lines, "map": draw_map, "front": draw_front, "stacks": draw_stacks}
