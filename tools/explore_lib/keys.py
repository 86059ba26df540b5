"""The keys of a machine file: their ranges, defaults and names in pictures.

The table is that of docs/MACHINE-FILE.md, but for `version`, which follows from the keys that a
machine file uses. The self-test compares the two.
"""

import difflib
from dataclasses import dataclass

Value = int | str


@dataclass(frozen=True)
class Key:
    """A key: a whole number within a range, or one of some texts."""

    name: str
    label: str
    default: Value
    low: int = 0
    high: int = 0
    multiple: int = 1
    is_power: bool = False
    texts: tuple[str, ...] = ()
    version: int = 1

    def fault_of(self, value: object) -> str | None:
        """Says what is wrong with a value, or None."""
        if self.texts:
            if value in self.texts:
                return None
            return f"{show(value)} is none of " + ", ".join(map(show, self.texts))
        if isinstance(value, bool) or not isinstance(value, int):
            return f"{show(value)} is no whole number"
        if not self.low <= value <= self.high:
            return f"{value} is out of range ({self.low} to {self.high})"
        if value % self.multiple != 0:
            return f"{value} is no multiple of {self.multiple}"
        if self.is_power and value & (value - 1) != 0:
            return f"{value} is no power of two"
        return None


def show(value: object) -> str:
    """A value as TOML writes it, cut where it is long."""
    if isinstance(value, bool):
        return str(value).lower()
    text = f'"{value}"' if isinstance(value, str) else str(value)
    return text if len(text) <= 60 else text[:57] + "..."


def number(name: str, low: int, high: int, default: int, label: str, version: int = 1) -> Key:
    """A key that any whole number of the range can have."""
    return Key(name, label, default, low, high, version=version)


def power(name: str, low: int, high: int, default: int, label: str, version: int = 1) -> Key:
    """A key that the powers of two in the range can have (and 0, where it is in the range)."""
    return Key(name, label, default, low, high, is_power=True, version=version)


def unit(name: str, label: str) -> list[Key]:
    """The two keys of a kind of unit."""
    return [
        number(f"{name}.count", 1, 8, 1, f"units for {label}"),
        number(f"{name}.latency", 1, 64, 1, f"latency of {label} (cycles)"),
    ]


def cache(name: str, label: str) -> list[Key]:
    """The four keys that both caches of the first level have."""
    return [
        power(f"{name}.line", 4, 256, 64, f"line of the {label} cache (bytes)"),
        power(f"{name}.sets", 1, 4096, 64, f"sets of the {label} cache"),
        number(f"{name}.ways", 0, 16, 0, f"ways of the {label} cache"),
        number(f"{name}.miss", 0, 1000, 20, f"miss of the {label} cache (cycles)"),
    ]


def make_keys() -> list[Key]:
    """All keys in the order in which a machine file is written."""
    page = 4096
    return [
        Key("ram.base", "address of RAM", 0x80000000, 0x20000000, 0xFFFFF000, page),
        Key("ram.size", "RAM (bytes)", 16777216, page, 67108864, page),
        number("core.fetch", 1, 8, 1, "instructions fetched in a cycle"),
        number("core.commit", 1, 8, 1, "instructions committed in a cycle"),
        number("core.front", 1, 32, 1, "front end (cycles)"),
        number("core.window", 1, 256, 1, "window (instructions under way)"),
        number("core.stations", 1, 256, 256, "reservation stations"),
        *unit("alu", "the ALU class"),
        *unit("mul", "multiplications"),
        *unit("div", "divisions"),
        *unit("mem", "loads and stores"),
        Key("predictor.kind", "predictor", "static", texts=("static", "bimodal", "gshare")),
        power("predictor.counters", 1, 65536, 1024, "counters of the predictor"),
        number("predictor.history", 0, 16, 8, "history of the predictor (branches)"),
        power("predictor.targets", 0, 65536, 0, "places of the target buffer"),
        *cache("icache", "instruction"),
        *cache("dcache", "data"),
        Key("dcache.policy", "stores", "through", texts=("through", "back"), version=2),
        power("l2.line", 4, 256, 64, "line of the second level (bytes)", 2),
        power("l2.sets", 1, 65536, 512, "sets of the second level", 2),
        number("l2.ways", 0, 16, 0, "ways of the second level", 2),
        number("l2.hit", 0, 1000, 10, "hit of the second level (cycles)", 2),
        number("l2.miss", 0, 1000, 100, "miss of the second level (cycles)", 2),
    ]


KEYS: dict[str, Key] = {key.name: key for key in make_keys()}
DEFAULTS: dict[str, Value] = {name: key.default for name, key in KEYS.items()}


def unknown_key(name: str) -> str:
    """Says that a machine file has no such key, and which one may be meant."""
    if name == "version":
        return "version follows from the keys that are used, and isn't set"
    near = difflib.get_close_matches(name, KEYS, 1)
    return f"{name} is no key of a machine file" + (f"; is {near[0]} meant?" if near else "")
