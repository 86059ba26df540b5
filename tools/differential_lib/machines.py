"""Machine files, and damaged ones."""

from explore_lib.keys import KEYS, show

from .draws import Draws
from .programs import BASE

Values = dict[str, int | str]

# How often a key is there, and its values.
CHOICES: dict[str, tuple[float, list[int] | list[str]]] = {
    "core.fetch": (0.6, [1, 2, 3, 4, 5, 6, 7, 8]),
    "core.commit": (0.6, [1, 2, 3, 4, 5, 6, 7, 8]),
    "core.front": (0.5, [1, 2, 3, 5, 17, 32]),
    "core.window": (0.9, [1, 2, 3, 4, 8, 16, 33, 64, 256]),
    "core.stations": (0.4, [1, 2, 3, 8, 32, 256]),
    **{f"{unit}.count": (0.4, [1, 2, 3, 4, 8]) for unit in ("alu", "mul", "div", "mem")},
    **{f"{unit}.latency": (0.5, [1, 2, 3, 5, 20, 64]) for unit in ("alu", "mul", "div", "mem")},
    "predictor.kind": (0.8, ["static", "bimodal", "gshare", "gshare"]),
    "predictor.counters": (0.5, [1, 2, 16, 1024, 65536]),
    "predictor.history": (0.5, list(range(17))),
    "predictor.targets": (0.8, [0, 1, 4, 16, 64, 1024]),
    **{f"{cache}.line": (0.5, [4, 8, 16, 64, 256]) for cache in ("icache", "dcache")},
    **{f"{cache}.sets": (0.7, [1, 2, 4, 16]) for cache in ("icache", "dcache")},
    **{f"{cache}.ways": (0.6, [0, 1, 2, 3, 16]) for cache in ("icache", "dcache")},
    **{f"{cache}.miss": (0.6, [0, 1, 3, 20, 100]) for cache in ("icache", "dcache")},
}
SECOND_CHOICES: dict[str, tuple[float, list[int] | list[str]]] = {
    "dcache.policy": (0.6, ["back", "back", "through"]),
    "l2.line": (0.5, [4, 16, 64, 256]),
    "l2.sets": (0.5, [1, 2, 16, 512]),
    "l2.ways": (0.7, [0, 1, 2, 4]),
    "l2.hit": (0.5, [0, 1, 4, 10]),
    "l2.miss": (0.5, [0, 1, 4, 50]),
}
# Small caches that write back, over a small second level.
SMALL_CACHES: dict[str, list[int]] = {
    **{"dcache.line": [4, 16, 64], "dcache.sets": [1, 1, 2, 8], "dcache.ways": [1, 1, 2, 4]},
    **{"l2.line": [4, 16, 64, 256], "l2.sets": [1, 2, 4], "l2.ways": [1, 1, 2, 3]},
    **{"icache.ways": [0, 1, 2], "icache.sets": [1, 4]},
}

WRONG_VALUES = [
    *("0", "1", "2", "3", "48", "-1", "256", "257", "4096", "65536", "65537", "0x20000000"),
    *("0xFFFFF000", "1000", "1001", "9223372036854775807", '"8"', "1.0", "true", "[]", "{}"),
    *('"gshare"', '"back"', '"Back"', "1979-05-27", "07:32", "0b11", "1_0", "[1,\n2,]"),
]
WRONG_NAMES = [
    *("core.foo = 1", "[cpu]", "zzz = 1", "Core.window = 1", "l2.foo = 1", "dcache.polic = 1"),
    *('"core.window" = 1', '"" = 1', "l3 = {}", '"\\x63ore".fetch = 2', '"\\e" = 1'),
]
WRONG_LINES = [
    *("a =", "core = 3", "[core]", "version = 1", "core.window = 08", 'x = "', "[[core]]"),
    *("version = 2", "version = 3", "l2 = 4", "= 1", "# c", "\t", "core.window = 8 core.fetch = 1"),
    *("alu = { count = 2,\n latency = 3, }", "mul = { count = 2 latency = 3 }", "div = { , }"),
]


def draw_values(draws: Draws) -> Values:
    """The keys of a machine file."""
    choices = dict(CHOICES)
    values: Values = {}
    if draws.chance(0.4):
        values["version"] = 2
        choices |= SECOND_CHOICES
    for name, (share, choice) in choices.items():
        if draws.chance(share):
            values[name] = draws.choice(choice)
    if draws.chance(0.25):
        small = {name: draws.choice(choice) for name, choice in SMALL_CACHES.items()}
        values |= {"version": 2, "dcache.policy": "back", **small}
    if draws.chance(0.15):
        values["ram.base"] = draws.choice([BASE, BASE - 0x10000, BASE - 0x1000])
        values["ram.size"] = draws.choice([0x13000, 0x20000, 1 << 20, 67108864])
    return values


def draw_machine(draws: Draws) -> bytes:
    """A machine file."""
    values = draw_values(draws)
    return "".join(f"{name} = {show(value)}\n" for name, value in values.items()).encode()


def damage_machine(draws: Draws, machine: bytes) -> bytes:
    """A machine file with other values, names or lines; it may still be one."""
    lines = machine.decode().splitlines()
    for _ in range(draws.randrange(1, 4)):
        kind = draws.random()
        if kind < 0.5:
            name = draws.choice(list(KEYS))
            lines = [line for line in lines if not line.startswith(f"{name} ")]
            lines += [f"{name} = {draws.choice(WRONG_VALUES)}"]
        elif kind < 0.65:
            lines += [draws.choice(WRONG_NAMES)]
        elif kind < 0.8:
            lines += [draws.choice(WRONG_LINES)]
        elif lines:
            del lines[draws.randrange(len(lines))]
        if draws.chance(0.2):
            draws.shuffle(lines)
    damaged = "\n".join(lines).encode() + draws.choice([b"", b"\n"])
    tails = [b"\xff", b"\r", b"\x00", b"\xc0\x80", b"\xef\xbb\xbf"]
    return damaged + draws.choice(tails) if draws.chance(0.05) else damaged
