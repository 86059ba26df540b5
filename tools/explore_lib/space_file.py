"""Reading the input: a TOML file that describes a space. All of it is checked before a run."""

from collections import Counter
from collections.abc import Mapping
from dataclasses import replace
from pathlib import Path

from shared_lib.faults import InputFault
from shared_lib.files import sum_of

from .formula import Formula
from .input_table import Table
from .keys import KEYS, Value, show
from .machine_file import MOST_BYTES, key_values, known_keys, read_base, read_toml
from .picture_file import read_pictures
from .space import Cost, Image, Lists, Options, Space

MOST_MACHINES = 100_000
MOST_IMAGE = 67_108_864
MOST_TEXT = 16_777_216
MOST_CYCLES = 1_099_511_627_776

TOP = "image images base cycles output input set grid together cost picture".split()


def read_space(path: Path) -> Space:
    """The space that a file describes; each formula has a value for each machine."""
    table = read_toml(path)
    table.known(TOP)
    images = read_images(table)
    base = table.path("base", MOST_BYTES)
    values = read_base(base) if base else {}
    fixed = key_values(table.table("set"))
    values |= fixed
    grid = read_lists(table.table("grid"))
    together = tuple(read_together(part) for part in table.tables("together"))
    check_once(table, [*({name: grid[name]} for name in grid), *together], fixed)
    options = Options(
        table.whole("cycles", 1, MOST_CYCLES),
        table.whole("output", 0, MOST_TEXT),
        table.path("input", MOST_TEXT),
    )
    cost = read_cost(table.table("cost"))
    is_suite = "images" in table.content
    space = Space(path, images, is_suite, options, values, grid, together, cost)
    check_size(table, space)
    is_drawn = table.content.get("picture") != []
    space = replace(space, pictures=read_pictures(table, space), is_drawn=is_drawn)
    check_formulas(table, space)
    return space


def read_images(table: Table) -> tuple[Image, ...]:
    """The image, or the suite of images, no two of which are equal."""
    names = table.names("images")
    if "images" not in table.content:
        name = table.text("image")
        if name is None:
            raise table.fault("", "image is missing")
        return (read_image(table, "image", name),)
    if "image" in table.content:
        raise table.fault("images", "image is given too")
    if not isinstance(table.content["images"], list) or not names:
        raise table.fault("images", f"{show(table.content['images'])} is no list of files")
    images = [read_image(table, "images", name) for name in names]
    known: dict[str, str] = {}
    for image in images:
        content = sum_of(image.path)
        if content in known:
            same = f"{show(image.name)} has the bytes of {show(known[content])}"
            raise table.fault("images", same)
        known[content] = image.name
    return tuple(images)


def read_image(table: Table, place: str, name: str) -> Image:
    """An image, whose first bytes have to be those of an ELF file for this machine."""
    path = table.path_of(place, name, MOST_IMAGE)
    with path.open("rb") as file:
        head = file.read(52)
    if len(head) < 52 or head[:6] + head[16:20] != b"\x7fELF\x01\x01\x02\x00\xf3\x00":
        raise table.fault(place, f"{path} is no linked ELF file for 32-bit RISC-V")
    return Image(name, path)


def read_lists(table: Table) -> Lists:
    """Keys with lists of values, each in the range of its key."""
    lists: dict[str, tuple[Value, ...]] = {}
    for name, values in known_keys(table).items():
        if not isinstance(values, list):
            raise table.fault(name, f"{show(values)} is no list")
        if not values:
            raise table.fault(name, "the list is empty")
        for value in values:
            if fault := KEYS[name].fault_of(value):
                raise table.fault(name, fault)
        lists[name] = tuple(values)
    return lists


def read_together(table: Table) -> Lists:
    """The lists that go together, of equal length."""
    lists = read_lists(table)
    if not lists:
        raise table.fault("", "there are no lists")
    first, *others = lists
    for name in others:
        if len(lists[name]) != len(lists[first]):
            counts = f"{len(lists[name])} values, and {first} has {len(lists[first])}"
            raise table.fault(name, counts)
    return lists


def check_once(table: Table, groups: list[Lists], fixed: Mapping[str, Value]) -> None:
    """Refuses a key that varies in two places or is set besides, and values that stand twice."""
    names = Counter(name for lists in groups for name in lists)
    for name, count in names.items():
        if count > 1:
            raise table.fault(name, "it varies in two places")
        if name in fixed:
            raise table.fault(name, "it varies, and [set] has it too")
    for lists in groups:
        for row, count in Counter(zip(*lists.values(), strict=True)).items():
            if count > 1:
                raise table.fault(", ".join(lists), f"{', '.join(map(show, row))} stands twice")


def check_size(table: Table, space: Space) -> None:
    """Refuses a space of no lists, or of too many machines."""
    if not space.varied:
        raise table.fault("", "nothing varies: there are no lists in [grid] and [[together]]")
    if space.size > MOST_MACHINES:
        raise table.fault("", f"{space.size:,} machines are more than {MOST_MACHINES:,}")


def read_cost(table: Table) -> Cost | None:
    """The cost of a machine, or None where the input has none."""
    if not table.content:
        return None
    table.known(["formula", "label", "unit"])
    text = table.text("formula")
    if text is None:
        raise table.fault("", "formula is missing")
    try:
        return Cost(Formula(text), table.text("label") or "cost", table.text("unit") or "")
    except InputFault as fault:
        raise table.fault("formula", str(fault)) from None


def check_formulas(table: Table, space: Space) -> None:
    """Computes each formula for each machine."""
    formulas = [space.cost.formula] if space.cost else []
    for picture in space.pictures:
        formulas += [axis.formula for axis in picture.axes.values() if axis.formula]
    for machine in space.machines() if formulas else ():
        for formula in formulas:
            try:
                formula.value(space.values(machine))
            except InputFault as fault:
                raise table.fault(f"machine {machine.number}", str(fault)) from None
