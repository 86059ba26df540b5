"""What is drawn from one seed: files, and calls by their kinds."""

from dataclasses import dataclass, field
from pathlib import Path

from .answers import Call
from .draws import Draws
from .images import damage_image, draw_image
from .kinds import ITSELF
from .lines import draw_words
from .machines import damage_machine, draw_machine
from .programs import draw_program
from .texts import damage_plan, draw_plan, draw_script

SHORT = ["--cycles", "200"]
# Runs that are long, or that two threads make turn by turn on a busy host, are rare, and the latter
# short.
SEEDS_PER_SOAK = 40
SEEDS_PER_RUN_IN_THREADS = 4
PACKETS = 150
PLANS = ["plan", "badplan"]
MOST_SHORT_CYCLES = 3000


@dataclass
class Case:
    """Files by their names, and calls in a folder that has them."""

    seed: int
    files: dict[str, bytes]
    calls: list[Call] = field(default_factory=list)
    # The words by which the reference makes the packets of a session of gdb.
    packets: list[str] = field(default_factory=list)

    def write(self, folder: Path) -> None:
        """Puts the files into a folder."""
        for name, content in self.files.items():
            (folder / name).write_bytes(content)


class CaseDraw:
    """Draws the case of a seed. What a kind draws doesn't depend on which other kinds there are."""

    def __init__(self, seed: int):
        self._seed = seed
        draws = self._draws("files")
        self._files = draw_files(draws)
        output = draws.choice([0, 1, 3, *[16777216] * 5])
        self._cycles = draws.choice([300, 5000, 30000, 30000])
        self._options = ["--cycles", str(self._cycles), "--output", str(output), "--input", "input"]
        self._ring = ["--ring", str(draws.choice([1, 2, 3, 7, 16, 64, 300]))]
        self._history = ["--history", str(draws.choice([1, 2, 10, 50, 1000, 65536]))]
        self._pipeline = draws.choice(
            [[], [], ["--pipeline", "window"], ["--pipeline", "inorder"], ["--pipeline=inorder"]]
        )
        self._place = draws.choice([[], [], ["--machine", "m.toml"], ["--machine=m2.toml"]])
        self._code = draws.choice([[], ["--exit-code"]])

    def draw(self, kinds: list[str]) -> Case:
        """The case with the calls of some kinds."""
        case = Case(self._seed, self._files)
        for kind in kinds:
            stdin = "packets" if kind == "gdb" else None
            if kind == ITSELF:
                case.calls += self._calls_again()
            else:
                case.calls += [Call(kind, tuple(words), stdin) for words in self._words(kind)]
        if "gdb" in kinds:
            case.packets = ["packets", str(self._seed), str(PACKETS), "p.elf", *self._options]
        return case

    def _draws(self, what: str) -> Draws:
        return Draws(f"{self._seed} {what}")

    def _words(self, kind: str) -> list[list[str]]:
        """The words of each call of a kind."""
        options, ring, code = self._options, self._ring, self._code
        machine = ["p.elf", "m.toml"]
        match kind:
            case "func":
                return [[kind, "p.elf", *self._place, *code, *options]]
            case "count":
                return [[kind, "p.elf", *self._place, *options]]
            case "run":
                return self._runs(machine)
            case "sched":
                return [[kind, *machine, plan, *ring, *options] for plan in PLANS]
            case "inorder":
                plans = [[], *([plan] for plan in PLANS)]
                return [[kind, *machine, *plan, *ring, *options, *code] for plan in plans]
            case "back":
                return [[kind, "p.elf", "script", *self._place, *self._history, *options]]
            case "gdb":
                return [[kind, "p.elf", *self._place, *self._history, *options]]
            case "sweep":
                machines = ["m.toml", "bad.toml", "m2.toml"]
                whole = [kind, "p.elf", *machines, *self._pipeline, *options]
                return [whole, [kind, "bad.elf", "m.toml", "bad.toml", *options]]
            case "image":
                run = ["run", "bad.elf", "m.toml", "--threads", "1", *SHORT]
                return [["func", "bad.elf", *self._place, *SHORT], run]
            case "machine":
                placed = ["p.elf", "script", "--machine", "bad.toml", *SHORT]
                return [["run", "p.elf", "bad.toml", "--threads", "1", *SHORT], ["back", *placed]]
            case "words":
                draws = self._draws("words")
                return [draw_words(draws) for _ in range(4)]
            case "soak":
                seed = str(self._draws("soak").getrandbits(64))
                return [[kind, seed]] if self._seed % SEEDS_PER_SOAK == 0 else []
            case "trace":
                return [[kind, *machine, *self._span(), *self._pipeline, *options]]
            case "stack" | "profile":
                return [[kind, *machine, *self._pipeline, *options]]
        raise ValueError(kind)

    def _runs(self, machine: list[str]) -> list[list[str]]:
        """Runs under a machine file: on one thread, now and then on two, and on either pipeline."""
        ring, code, short = self._ring, self._code, self._short_options()
        runs = [["run", *machine, *ring, *self._options, "--threads", "1", *code]]
        if self._seed % SEEDS_PER_RUN_IN_THREADS == 0:
            runs += [["run", *machine, *ring, *short]]
        if self._pipeline:
            runs += [["run", *code, *machine, *self._pipeline, *ring, "--threads=1", *short]]
        return runs

    def _calls_again(self) -> list[Call]:
        """Pairs of words that the reference has to answer alike; some make it test itself.

        The runs are short, since the split machine searches its window for each event.
        """
        options = self._short_options()
        machine, seed = ["p.elf", "m.toml", *options], ["--seed", str(self._seed)]
        inorder = ["inorder", "p.elf", "m.toml", "plan", *self._ring, *options]
        stack = ["stack", *machine, *self._pipeline]
        pairs = [
            (["run", *machine], ["run", *machine, "--noskip"]),
            (["run", *machine], ["splitrun", *machine, *self._ring]),
            (["run", *machine], ["splitrun", *machine, *self._ring, *seed]),
            (inorder, [*inorder, "--check", *seed]),
            (stack, [*stack, "--check"]),
        ]
        return [Call(ITSELF, tuple(one), None, tuple(again)) for one, again in pairs]

    def _short_options(self) -> list[str]:
        """The same options with not so many cycles."""
        return ["--cycles", str(min(self._cycles, MOST_SHORT_CYCLES)), *self._options[2:]]

    def _span(self) -> list[str]:
        """From which cycle to which a trace goes."""
        draws = self._draws("trace")
        first = draws.choice([0, 0, 1, 5, 40, 300, 5000])
        last = first + draws.choice([0, 1, 7, 100, 3000])
        return ["--from", str(first), "--to", str(last)]


def draw_files(draws: Draws) -> dict[str, bytes]:
    """A program with its machine files, plans, input and script, and damaged ones."""
    image, machine = draw_image(draws, draw_program(draws)), draw_machine(draws)
    plan = draw_plan(draws)
    return {
        "p.elf": image,
        "m.toml": machine,
        "m2.toml": draw_machine(draws),
        "plan": plan,
        "input": draws.randbytes(draws.choice([0, 1, 4, 40])),
        "script": draw_script(draws),
        "bad.elf": damage_image(draws, image),
        "bad.toml": damage_machine(draws, machine),
        "badplan": damage_plan(draws, plan),
    }


def draw_case(seed: int, kinds: list[str]) -> Case:
    """The case of a seed with the calls of some kinds."""
    return CaseDraw(seed).draw(kinds)
