"""Reading the pictures of an input."""

from dataclasses import replace

from shared_lib.faults import InputFault

from .formula import Formula
from .input_table import Table
from .keys import KEYS, Value, show, unknown_key
from .machine_file import key_values
from .space import Axis, Picture, Space

AXES = {"lines": ("x", "lines"), "map": ("x", "y"), "front": ("lines",), "stacks": ("x",)}
STACKS = "stacks"
COMMON = "kind name title at of knee".split()


def read_pictures(table: Table, space: Space) -> tuple[Picture, ...]:
    """The pictures of the input, or the usual ones where it has none."""
    parts = table.tables("picture") if "picture" in table.content else usual_pictures(table, space)
    pictures: list[Picture] = []
    for part in parts:
        picture = read_picture(part, space)
        if any(picture.name == other.name for other in pictures):
            raise part.fault("name", f"two pictures are {show(picture.name)}")
        pictures.append(picture)
    return tuple(pictures)


def usual_pictures(table: Table, space: Space) -> list[Table]:
    """Lines and a map of the first two keys that vary, and the front where there is a cost."""
    pictures: list[dict[str, object]] = []
    if len(space.varied) > 1:
        first, second = space.varied[:2]
        pictures += [{"kind": "lines", "x": first, "lines": second}]
        pictures += [{"kind": "map", "x": first, "y": second}]
    if space.cost is not None:
        pictures += [{"kind": "front"}]
    return [Table(table.file, "picture", content) for content in pictures]


def read_picture(table: Table, space: Space) -> Picture:
    """One picture."""
    kind = table.choice("kind", list(AXES))
    labels = [f"{part}_label" for part in AXES[kind]]
    table.known([*COMMON, *AXES[kind], *labels])
    if kind == "front" and space.cost is None:
        raise table.fault("", "the input has no [cost]")
    name = table.text("name") or kind
    if not name.replace("-", "").replace("_", "").isalnum() or not name.isascii():
        raise table.fault("name", f"{show(name)} has more than letters, digits, - and _")
    axes = {part: axis for part in AXES[kind] if (axis := read_axis(table, space, part))}
    for part in AXES[kind]:
        if part not in axes and kind != "front":
            raise table.fault("", f"{part} is missing")
    title = table.text("title") or usual_title(space, kind)
    of = table.choice("of", ["best", "mean", "worst"], "best")
    at = read_chosen(table.table("at"), space)
    return Picture(kind, name, title, axes, at, of, table.percent("knee", 5.0))


def fit_stacks(space: Space, has_stacks: bool) -> Space:
    """The space with a picture of stacks where these are wanted, and a fault where they are not."""
    own = [picture for picture in space.pictures if picture.kind == STACKS]
    if own and not has_stacks:
        raise InputFault(f"{space.path}: the picture {show(own[0].name)} needs --stacks")
    if own or not has_stacks or not space.is_drawn:
        return space
    usual = {"kind": STACKS, "x": space.varied[0]}
    picture = read_picture(Table(space.path, "picture", usual), space)
    return replace(space, pictures=(*space.pictures, picture))


def usual_title(space: Space, kind: str) -> str:
    """The title of a picture that has none of its own."""
    rate = "Speed" if space.is_suite else "Instructions per cycle"
    what = {"front": "Cost and cycles", STACKS: "Where the cycles went"}.get(kind, rate)
    return f"{what}: {space.title} on {space.size:,} machines"


def read_axis(table: Table, space: Space, part: str) -> Axis | None:
    """What a picture goes by: a key, some keys, or a formula; None where it is left out."""
    names = table.names(part)
    if not names:
        return None
    label = table.text(f"{part}_label")
    if isinstance(table.content[part], str) and names[0] not in KEYS:
        try:
            formula = Formula(names[0])
        except InputFault as fault:
            raise table.fault(part, str(fault)) from None
        axis = Axis(label or formula.text, tuple(sorted(formula.keys)), formula)
    else:
        for name in names:
            if name not in KEYS:
                raise table.fault(part, unknown_key(name))
        axis = Axis(label or ", ".join(KEYS[name].label for name in names), tuple(names))
    if not any(key in space.varied for key in axis.keys):
        raise table.fault(part, f"{', '.join(axis.keys) or 'a number'} doesn't vary")
    return axis


def read_chosen(table: Table, space: Space) -> dict[str, Value]:
    """The values of the machines that a picture shows."""
    chosen = key_values(table)
    for name, value in chosen.items():
        lists = [lists[name] for lists in (space.grid, *space.together) if name in lists]
        if not lists:
            raise table.fault(name, "it doesn't vary")
        if value not in lists[0]:
            raise table.fault(name, f"{show(value)} isn't in its list")
    return chosen
