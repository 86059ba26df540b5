"""The test of this program, with a simulator that is there. Silent where it passes."""

import contextlib
import csv
import io
import math
import re
import shutil
import subprocess
import sys
import time
from collections import Counter
from pathlib import Path

from shared_lib.causes import NAMES
from shared_lib.checks import Checks, run_checks
from shared_lib.faults import Fault, InputFault

from . import command
from .answers import read_answer
from .formula import Formula
from .front import front_of, knee_of
from .keys import DEFAULTS, KEYS, Key
from .program import call, find_program

IMAGE = command.REPOSITORY / "examples" / "hello" / "hello.elf"
OTHER_IMAGE = command.REPOSITORY / "examples" / "traps" / "traps.elf"
KEY_TABLE = command.REPOSITORY / "docs" / "MACHINE-FILE.md"
SECONDS = 60

BASE = """
icache = { ways = 1, sets = 4, line = 16 }
dcache = { ways = 1, sets = 2 }
"""
SPACE = f"""
image = "{IMAGE}"
base = "base.toml"
picture = []
[grid]
core.window = [1, 8]
predictor.kind = ["static", "bimodal"]
"""
SUITE = SPACE.replace(f'image = "{IMAGE}"', f'images = ["{IMAGE}", "{OTHER_IMAGE}"]')
MACHINES = [
    "core.window = 1",
    'core.window = 1\npredictor.kind = "bimodal"',
    "core.window = 8",
    'core.window = 8\npredictor.kind = "bimodal"',
]

# Counts the machines that are run, dies once where a file says so, and waits behind the second call
# while another file is there.
COUNTING = """#!/bin/sh
case $2 in
    */image*.elf)
        echo "$@" >>'{folder}/calls'
        [ ! -e '{folder}/die' ] || {{ rm '{folder}/die'; kill -9 $$; }}
        ;;
esac
while [ -e '{folder}/hold' ] && [ "$(wc -l <'{folder}/calls')" -gt 2 ]; do sleep 0.1; done
exec '{program}' "$@"
"""

WRONG = {
    "isn't TOML": "image = ",
    "image is missing": "[grid]\ncore.window = [1]",
    "image: there is no file": SPACE.replace("hello.elf", "none.elf"),
    "image: {here}/input.toml is no linked ELF file": SPACE.replace(str(IMAGE), "input.toml"),
    "images: image is given too": f'image = "{IMAGE}"\n{SUITE}',
    "images: there is no file": SUITE.replace("traps.elf", "none.elf"),
    "images: [] is no list of files": "images = []\n[grid]\ncore.window = [1]",
    "has the bytes of": SUITE.replace(str(OTHER_IMAGE), str(IMAGE)),
    "base: there is no file": SPACE.replace("base.toml", "none.toml"),
    "isn't TOML: ": SPACE.replace("base.toml", str(IMAGE)),
    "imago: unknown": f'imago = "x"\n{SPACE}',
    "cycles: 0 is out of range": f"cycles = 0\n{SPACE}",
    "grid: core.windows is no key of a machine file; is core.window meant?": SPACE.replace(
        "core.window", "core.windows"
    ),
    "grid: core.window: 0 is out of range (1 to 256)": SPACE.replace("[1, 8]", "[1, 0]"),
    "grid: core.window: 8.0 is no whole number": SPACE.replace("[1, 8]", "[1, 8.0]"),
    "grid: core.window: true is no whole number": SPACE.replace("[1, 8]", "[true]"),
    'grid: predictor.kind: "perfect" is none of': SPACE.replace("bimodal", "perfect"),
    "grid: dcache.sets: 48 is no power of two": f"{SPACE}dcache.sets = [48]",
    "grid: core.window: the list is empty": SPACE.replace("[1, 8]", "[]"),
    "grid: core.window: 8 is no list": SPACE.replace("[1, 8]", "8"),
    "core.window: 8 stands twice": SPACE.replace("[1, 8]", "[8, 8]"),
    "core.window: it varies in two places": f"{SPACE}[together]\ncore.window = [1]",
    "core.window: it varies, and [set] has it too": f"{SPACE}[set]\ncore.window = 4",
    "together 1: core.commit: 1 values, and core.fetch has 2": (
        f"{SPACE}[[together]]\ncore.fetch = [1, 2]\ncore.commit = [1]"
    ),
    "set: core.front: 33 is out of range": f"{SPACE}[set]\ncore.front = 33",
    "nothing varies": f'image = "{IMAGE}"',
    "cost: formula: core.windows is no key": f'{SPACE}[cost]\nformula = "core.windows"',
    "cost: formula: \"__import__('os')\" isn't allowed": (
        f"{SPACE}[cost]\nformula = '__import__(\"os\")'"
    ),
    "machine 1: '1 / (core.window - 1)' has no value": (
        f'{SPACE}[cost]\nformula = "1 / (core.window - 1)"'
    ),
    'the picture "stacks" needs --stacks': SPACE.replace(
        "[]", '[{ kind = "stacks", x = "core.window" }]'
    ),
    'picture 1: kind: "pie" is none of': SPACE.replace("[]", '[{ kind = "pie" }]'),
    "picture 1: x: core.front doesn't vary": SPACE.replace(
        "[]", '[{ kind = "map", x = "core.front", y = "core.window" }]'
    ),
}


class SelfTest(Checks):
    """The checks, and what a simulator was called for."""

    def __init__(self, folder: Path, program: Path):
        super().__init__(folder)
        self.program = program
        self.counting = folder / "counting"
        self.counting.write_text(COUNTING.format(folder=folder, program=program))
        self.counting.chmod(0o755)
        (folder / "calls").touch()
        self.write_input(f"{BASE}core.window = 4", "base")

    def write_input(self, text: str, name: str = "input") -> Path:
        """Writes an input."""
        path = self.folder / f"{name}.toml"
        path.write_text(text)
        return path

    def words(self, space: Path, name: str, *more: str) -> list[str]:
        """The command line of an exploration in a folder of a name."""
        script = str(command.REPOSITORY / "tools" / "explore")
        where = ["--folder", str(self.folder / name), "--fast", str(self.counting)]
        return [sys.executable, script, str(space), *where, "--batch", "1", *more]

    def explore(self, space: Path, name: str, *more: str) -> str:
        """Explores, and gives what is said; it has to end well."""
        done = subprocess.run(
            self.words(space, name, *more),
            capture_output=True,
            text=True,
            timeout=SECONDS,
            check=False,
        )
        self.expect(f"{name}: status ({done.stderr.strip()})", done.returncode, 0)
        return done.stderr

    def rows(self, name: str, table: str = "rows") -> list[dict[str, str]]:
        """The rows of a table."""
        with (self.folder / name / f"{table}.csv").open(newline="") as file:
            return list(csv.DictReader(file))

    def calls(self) -> Counter[str]:
        """How often each machine was run since the last call of this."""
        path = self.folder / "calls"
        files = Counter(re.findall(r"[0-9]{6}\.toml", path.read_text()))
        path.write_text("")
        return files

    def check_keys(self) -> None:
        """The table of keys is that of the documents."""
        rows: dict[str, tuple[str, str]] = {}
        for line in KEY_TABLE.read_text().split("## Keys")[1].splitlines():
            cells = [cell.strip() for cell in line.strip("|").split("|")]
            if len(cells) == 4:
                for name in re.findall(r"`([a-z0-9]+\.[a-z]+)`", cells[0]):
                    rows[name] = (cells[1], cells[2].strip('`"'))
        self.expect("keys", sorted(rows), sorted(KEYS))
        for name in sorted(set(rows) & set(KEYS)):
            key, (wanted, default) = KEYS[name], rows[name]
            self.expect(f"{name}: range", written_range(key), wanted.split(";")[0])
            self.expect(f"{name}: default", written_default(key), default)

    def check_parts(self) -> None:
        """Formulas, front, knee and answers."""
        cost = Formula('2 * core.fetch + (predictor.kind == "static") * max(core.window, 3)')
        self.expect("formula", cost.value(DEFAULTS), 5.0)
        for text in ("core", "(1).real", "[1]", "lambda: 1", "core.fetch +", "'a' * 3", "min()"):
            with contextlib.suppress(InputFault):
                self.expect(f"formula {text!r}", Formula(text).text, "a fault")
        points = [(3.0, 5), (1.0, 9), (2.0, 9), (3.0, 5), (2.0, 7), (4.0, 6)]
        self.expect("front", front_of(points), [1, 4, 0, 3])
        self.expect("knee", knee_of([1.0, 1.9, 1.95, 2.0], 5), 1)
        line = "pass cycles 7 instructions 4 mispredicted 0 icache 0 dcache 0"
        self.expect("answer", read_answer(f"a: {line}\nb: {line}\n", ["a", "b"]), None)
        self.expect("answer", read_answer(f"a: {line}\nstatus 5\n", ["a", "b"]), None)
        self.expect("answer", read_answer(f"a: {line}\nstatus 137\n", ["a"]), None)

    def check_wrong_inputs(self) -> None:
        """A wrong input ends with one line that names what is wrong, and nothing is written."""
        for text, content in WRONG.items():
            space = self.write_input(content)
            said = io.StringIO()
            with contextlib.redirect_stderr(said):
                status = command.main(self.words(space, "wrong")[2:])
            wanted = text.replace("{here}", str(self.folder))
            one_line = said.getvalue().count("\n") == 1 and wanted in said.getvalue()
            self.expect(f"{wanted} ({said.getvalue().strip()})", (status, one_line), (2, True))
        self.expect("wrong input: folder", (self.folder / "wrong").exists(), False)

    def check_grid(self) -> None:
        """The rows of a grid of four machines are the lines of `sweep`."""
        names = []
        for number, text in enumerate(MACHINES):
            names.append(str(self.write_input(BASE + text, f"machine{number}")))
        lines = call(self.program, ["sweep", str(IMAGE), *names]).stdout.decode().splitlines()
        self.explore(self.write_input(SPACE), "grid")
        rows = self.rows("grid")
        self.expect("grid: rows", len(rows), 4)
        for name, line, row in zip(names, lines, rows, strict=False):
            text = (
                f"{name}: {row['end']} cycles {row['cycles']} instructions {row['instructions']}"
                f" mispredicted {row['mispredicted']} icache {row['icache_misses']}"
                f" dcache {row['dcache_misses']}"
            )
            self.expect("grid: row", text, line)
            rate = int(row["instructions"]) / int(row["cycles"])
            self.expect("grid: rate", row["instructions_per_cycle"], f"{rate:.6f}")
            misses = (row["icache_misses"], row["dcache_misses"])
            self.expect(
                "grid: misses of both caches", "0" in misses or len(set(misses)) == 1, False
            )
        self.expect("grid: machines run", set(self.calls().values()), {1})
        self.explore(self.write_input(SPACE.replace("[1, 8]", "[8, 16, 1]")), "grid")
        self.expect("longer list: machines run", sum(self.calls().values()), 2)

    def check_suite(self) -> None:
        """The rows of a suite are those of its images alone; one that is added alone is run."""
        self.explore(self.write_input(SUITE.replace(f', "{OTHER_IMAGE}"', "")), "suite")
        self.calls()
        self.explore(self.write_input(SUITE), "suite")
        self.expect("suite: machines run", sum(self.calls().values()), 4)
        cycles: list[list[int]] = []
        for image in (IMAGE, OTHER_IMAGE):
            alone = self.folder / image.stem
            self.explore(self.write_input(SPACE.replace(str(IMAGE), str(image))), alone.name)
            rows = [row for row in self.rows("suite") if row.pop("image") == str(image)]
            self.expect(f"suite: {image.name}", rows, self.rows(alone.name))
            cycles += [[int(row["cycles"]) for row in rows]]
        wanted = [f"{math.sqrt(a * b / cycles[0][0] / cycles[1][0]):.6f}" for a, b in zip(*cycles)]
        means = [row["relative_cycles"] for row in self.rows("suite", "machines")]
        self.expect("suite: means", means, wanted)
        self.explore(self.write_input(f"cycles = 1000\n{SUITE}"), "bounded")
        means = [row["relative_cycles"] for row in self.rows("bounded", "machines")]
        self.expect("suite: means of runs that were ended", means, [""] * 4)

    def check_stacks(self) -> None:
        """The columns of causes are the lines of `stack`, where the simulator has it."""
        space = self.write_input(SPACE)
        try:
            find_program(self.program, "stack")
        except Fault:
            return
        self.explore(space, "stacks", "--stacks", "--squashed")
        for text, row in zip(MACHINES, self.rows("stacks"), strict=True):
            machine = self.write_input(BASE + text, "machine")
            report = call(self.program, ["stack", str(IMAGE), str(machine)]).stdout.decode()
            for name in NAMES:
                wanted = re.findall(rf"^head\.{name}: ([0-9]+)$", report, re.MULTILINE)
                self.expect(f"stacks: {name}", [row[f"on_{name}"]], wanted[-1:])
            squashed = re.findall(r"^squashed: ([0-9]+)$", report, re.MULTILINE)
            self.expect("stacks: squashed", [row["squashed"]], squashed[-1:])
            causes = sum(int(row[f"on_{name}"]) for name in NAMES)
            self.expect("stacks: sum", causes, int(row["cycles"]))

    def check_refused(self) -> None:
        """A refused machine is a row with its reason."""
        space = SPACE.replace("core.window = [1, 8]", "ram.base = [0x80000000, 0xFFFFF000]")
        self.explore(self.write_input(space), "refused")
        found = [(row["end"], row["cycles"] == "", row["reason"]) for row in self.rows("refused")]
        refusal = ("refused", True, "machine: range ram.size 16777216")
        self.expect("refused", found, [("pass", False, "")] * 2 + [refusal] * 2)

    def check_break(self) -> None:
        """A run that is killed goes on where it stopped, and another one beside it is refused."""
        space = self.write_input(SPACE)
        self.calls()
        hold = self.folder / "hold"
        hold.touch()
        words = self.words(space, "break", "--quiet")
        running = subprocess.Popen(words, stderr=subprocess.DEVNULL)
        try:
            end = time.monotonic() + SECONDS
            while len((self.folder / "calls").read_text().splitlines()) < 3:
                if time.monotonic() > end or running.poll() is not None:
                    raise Fault("break: the third machine isn't reached")
                time.sleep(0.05)
            beside = subprocess.run(
                words, capture_output=True, text=True, timeout=SECONDS, check=False
            )
            self.expect("lock: status", beside.returncode, 1)
            self.expect("lock: line", "another exploration is at work" in beside.stderr, True)
        finally:
            running.kill()
            running.wait()
            hold.unlink()
        self.explore(space, "break")
        counts = self.calls()
        self.expect(
            "break: machines run", [counts[f"00000{i}.toml"] for i in range(1, 5)], [1, 1, 2, 1]
        )
        self.expect_same_table("break")
        self.calls()
        self.explore(space, "break")
        self.expect("finished: machines run", sum(self.calls().values()), 0)

    def check_killed(self) -> None:
        """A batch whose worker is killed is run again."""
        self.calls()
        (self.folder / "die").touch()
        self.explore(self.write_input(SPACE), "killed")
        self.expect("killed: machines run", sum(self.calls().values()), 5)
        self.expect_same_table("killed")

    def check_changed_image(self) -> None:
        """Rows of another image are kept, and not used."""
        image = self.folder / "image.elf"
        shutil.copyfile(IMAGE, image)
        space = self.write_input(SPACE.replace(str(IMAGE), str(image)))
        self.explore(space, "changed")
        image.write_bytes(IMAGE.read_bytes() + b"\0")
        said = self.explore(space, "changed")
        wanted = "explore: 4 rows of before aren't used, since the image changed; they are kept\n"
        self.expect("changed image", said, wanted)
        self.draw_without_rows(image)
        shutil.copyfile(IMAGE, image)
        self.calls()
        self.explore(space, "changed")
        self.expect("image of before: machines run", sum(self.calls().values()), 0)

    def draw_without_rows(self, image: Path) -> None:
        """`--draw` says which rows it leaves out, and leaves a table that it has no row for."""
        text = f"cycles = 500\n{SPACE.replace(str(IMAGE), str(image))}"
        space = self.write_input(text, "bounded")
        before = (self.folder / "changed" / "rows.csv").read_bytes()
        said = io.StringIO()
        with contextlib.redirect_stderr(said):
            status = command.main(self.words(space, "changed", "--draw")[2:])
        lines = said.getvalue().splitlines()
        self.expect("draw without rows: status", status, 1)
        self.expect("draw without rows: what changed", "the bound of cycles" in lines[0], True)
        self.expect("draw without rows: line", "no machine has its row" in lines[-1], True)
        after = (self.folder / "changed" / "rows.csv").read_bytes()
        self.expect("draw without rows: table", after == before, True)

    def check_parallel(self) -> None:
        """GNU parallel gives the same table, where it is installed."""
        if shutil.which("parallel"):
            self.explore(
                self.write_input(SPACE), "parallel", "--on", "parallel", "--sshlogin", "2/:"
            )
            self.expect_same_table("parallel")

    def expect_same_table(self, name: str) -> None:
        """The table has the bytes of an undisturbed run's."""
        self.explore(self.write_input(SPACE), "grid")
        tables = [(self.folder / folder / "rows.csv").read_bytes() for folder in (name, "grid")]
        self.expect(f"{name}: table", tables[0], tables[1])


def written_range(key: Key) -> str:
    """A key's range as the documents write it."""
    if key.texts:
        return ", ".join(f'`"{text}"`' for text in key.texts)
    if key.name == "ram.base":
        return f"a multiple of {key.multiple:,} from 0x{key.low:08X} to 0x{key.high:08X}"
    if key.multiple > 1:
        return f"a multiple of {key.multiple:,} from {key.low:,} to {key.high:,}"
    power = ", 0 or a power of two" if key.low == 0 else ", a power of two"
    return f"{key.low:,} to {key.high:,}" + (power if key.is_power else "")


def written_default(key: Key) -> str:
    """A key's default as the documents write it."""
    if key.name == "ram.base":
        return f"0x{key.default:08X}"
    return key.default if isinstance(key.default, str) else f"{key.default:,}"


def self_test(fast: Path) -> int:
    """Runs all checks; says what went wrong."""
    program = find_program(fast).absolute()
    return run_checks("explore", lambda folder: SelfTest(folder, program))
