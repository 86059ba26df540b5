"""Plans and scripts, and damaged ones."""

from .draws import Draws
from .programs import BASE

MOST_STEPS = 1099511627776
STEPS = [1, 2, 3, 7, 20, 100, 1000, MOST_STEPS]
WRONG_LINES = [
    *("x", "s", "s  1", "s 0", f"s {MOST_STEPS + 1}", "b -1", "t 8000000", "t 8000000g", "r "),
    *("s 000000000000000000001", "s 00000000000000000001", "t 80000000 ", "S 1", "s\t1", " r"),
]


def draw_plan(draws: Draws) -> bytes:
    """A plan of some stretches, in each of which some events come more often than others."""
    plan = ""
    for _ in range(draws.randrange(1, 6)):
        weights = [draws.choice([1, 1, 4, 16]) for _ in "OCPKTS"]
        plan += "".join(draws.choices("OCPKTS", weights, k=draws.randrange(10, 1500)))
    return plan.encode()


def damage_plan(draws: Draws, plan: bytes) -> bytes:
    """A short plan with blanks, or with a byte that is no event."""
    middle = draws.choice([b"", b"X", b"c", b"\n \r", b"\t", b"\0"])
    return plan[:50] + middle + plan[50:80]


def draw_line(draws: Draws) -> str:
    """A line of a script."""
    kind = draws.random()
    if kind < 0.4:
        return f"s {draws.choice(STEPS)}"
    if kind < 0.7:
        return f"b {draws.choice(STEPS)}"
    if kind < 0.85:
        address = BASE + 4 * draws.randrange(200) if draws.chance(0.9) else 0
        return f"t {address:08X}" if draws.chance(0.5) else f"t {address:08x}"
    return "r"


def draw_script(draws: Draws) -> bytes:
    """A script, in which now and then a line is none."""
    lines = []
    for _ in range(draws.randrange(1, 14)):
        lines += [draw_line(draws)]
        if draws.chance(0.05):
            lines += [""]
        if draws.chance(0.02):
            lines += [draws.choice(WRONG_LINES)]
    text = draws.choice(["\n", "\n", "\r\n"]).join(lines)
    return (text + draws.choice(["\n", "\n", "", "\r\n", "\r"])).encode()
