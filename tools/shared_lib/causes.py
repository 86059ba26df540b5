"""What a cycle is spent on: the causes, what they say, their keys and their colours."""

from dataclasses import dataclass


@dataclass(frozen=True)
class Cause:
    """A cause: its name, what the oldest instruction did, and where an architect turns to."""

    name: str
    says: str
    turn: str
    colour: str


CAUSES = [
    Cause("commit", "instructions leave", "core.commit; fewer instructions", "#52b788"),
    Cause("alu", "executes", "alu.latency", "#a8c7fa"),
    Cause("mul", "multiplies", "mul.latency", "#7aa7f0"),
    Cause("div", "divides", "div.latency, div.count", "#4e7fd6"),
    Cause("load", "loads", "mem.latency", "#8fd0c9"),
    Cause("store", "stores", "mem.latency", "#5fb0a8"),
    Cause("device", "loads from a device, as the oldest alone", "the program", "#3d8a83"),
    Cause("serial", "CSR or MRET, as the oldest alone", "the program", "#9c8adf"),
    Cause(
        "operand", "in order: an operand isn't there yet", "mem.latency; the compiler", "#b9c26a"
    ),
    Cause("dcache", "misses the data cache", "dcache.*, l2.*", "#ef6f6c"),
    Cause("icache", "misses the instruction cache", "icache.*, l2.*", "#f0955a"),
    Cause("window", "came late: the window was full", "core.window", "#cdb4db"),
    Cause("stations", "came late: the stations were full", "core.stations", "#a58bd0"),
    Cause("mispredict", "refill after a misprediction", "predictor.*, core.front", "#ffd166"),
    Cause("trap", "refill after a trap", "core.front; the program", "#8d6e63"),
    Cause("interrupt", "refill after an interrupt", "core.front", "#6d4c41"),
    Cause("replay", "refill for a read of the time", "core.front; the program", "#bcaaa4"),
    Cause("fence", "refill after a FENCE.I", "core.front; the program", "#d7ccc8"),
    Cause("start", "the first instruction", "", "#cfd8dc"),
]
NAMES = [cause.name for cause in CAUSES]
