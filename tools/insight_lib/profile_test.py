"""The test of `tools/profile`. Silent where it passes.

Rows are those of a run worked by hand, and the ones that are kept beside the example; these are
made anew where a simulator is given.
"""

import contextlib
import io
import re
import shutil
import subprocess
from pathlib import Path

from shared_lib.causes import CAUSES, NAMES
from shared_lib.checks import Checks, run_checks
from shared_lib.plots import matplotlib

from . import profile_command
from .binutils import PREFIXES
from .elf import read_functions
from .functions import by_function
from .rows import COLUMNS, PLACE, read_profile, total_of

REPOSITORY = Path(__file__).resolve().parent.parent.parent
EXAMPLE = REPOSITORY / "examples" / "insight"
IMAGES = {name: EXAMPLE / f"{name}.elf" for name in ("branch", "arithmetic", "selection")}
MACHINES = {
    "small": REPOSITORY / "examples" / "machines" / "small.toml",
    "wide": REPOSITORY / "examples" / "machines" / "wide.toml",
    "bimodal": EXAMPLE / "bimodal.toml",
}
KEPT = [
    ("branch", "small"),
    ("branch", "wide"),
    ("branch", "bimodal"),
    ("arithmetic", "bimodal"),
    ("selection", "bimodal"),
]
SECONDS = 60

# A load that misses, and a branch that was mispredicted: address, word, counts that aren't 0.
BY_HAND = {
    "80000000,00000417": {"retired": 1, "fetched": 1, "cycles": 4, "commit": 1, "start": 3},
    "80000004,04042483": {
        "retired": 1,
        "fetched": 1,
        "dcache_accesses": 1,
        "dcache_misses": 1,
        "cycles": 11,
        "commit": 1,
        "dcache": 10,
    },
    "80000008,00048463": {
        "retired": 1,
        "taken": 1,
        "fetched": 1,
        "mispredicted": 1,
        "cycles": 2,
        "commit": 1,
        "mispredict": 1,
    },
    "8000000c,08042503": {"fetched": 1, "squashed": 1, "dcache_accesses": 1, "dcache_misses": 1},
    "other,00000000": {"fetched": 2},
}
TABLE = """\
cycles       %  retired   CPI  mispredicted  dcache misses  squashed  function   lost to
    17  100.0%        3  5.67             1              2         1  (none)     dcache 58.8%, \
start 17.6%, mispredict 5.9%
     0    0.0%        0     -             0              0         0  (no text)
    17  100.0%        3  5.67             1              2         1  total      dcache 58.8%, \
start 17.6%, mispredict 5.9%
"""


def lines_of(rows: dict[str, dict[str, int]]) -> str:
    """Rows as `profile` writes them."""
    lines = [",".join(PLACE + COLUMNS)]
    for place, counts in rows.items():
        lines.append(",".join([place, *(str(counts.get(name, 0)) for name in COLUMNS)]))
    return "".join(f"{line}\n" for line in lines)


WRONG = {
    "has neither the head of a profile nor that of counts": "address,word\n",
    "80000000: its causes don't add up": lines_of({"80000000,00000013": {"cycles": 1}}),
    "line 2 can't be read": lines_of({"8000000x,00000013": {}}),
    "line 3 can't be read": lines_of({"80000004,00000013": {}, "80000000,00000013": {}}),
}


class SelfTest(Checks):
    """The checks, with a simulator where one is there."""

    def __init__(self, folder: Path, program: Path | None):
        super().__init__(folder)
        self.program = program

    def kept(self, image: str, machine: str) -> Path:
        """The kept rows of an image on a machine."""
        return EXAMPLE / f"{image}.{machine}.csv"

    def profile(self, *words: object) -> tuple[int, str, str]:
        """The status of `tools/profile`, and what it says on both outputs."""
        out, said = io.StringIO(), io.StringIO()
        with contextlib.redirect_stdout(out), contextlib.redirect_stderr(said):
            status = profile_command.main([str(word) for word in words])
        return status, out.getvalue(), said.getvalue()

    def check_causes(self) -> None:
        """Each cause has a colour of its own."""
        self.expect("causes: colours", len({cause.colour for cause in CAUSES}), len(NAMES))

    def check_by_hand(self) -> None:
        """The table of the rows that were worked by hand."""
        path = self.folder / "hand.csv"
        path.write_text(lines_of(BY_HAND))
        self.expect("by hand", self.profile(path), (0, TABLE, ""))
        counted = self.folder / "count.csv"
        counted.write_text("address,word,retired,exceptions,taken\n80000000,00000013,10,1,0\n")
        _, table, _ = self.profile(counted)
        self.expect("count", table.splitlines()[-1].split()[:3], ["11", "100.0%", "10"])
        self.expect("count: unit", table.split()[0], "steps")

    def check_wrong(self) -> None:
        """Wrong rows and words end with one line that says what is wrong."""
        path = self.folder / "wrong.csv"
        for wanted, text in WRONG.items():
            path.write_text(text)
            status, out, said = self.profile(path)
            is_right = out == "" and said.count("\n") == 1 and wanted in said
            self.expect(f"{wanted} ({said.strip()})", (status, is_right), (2, True))
        path = self.kept("branch", "wide")
        self.expect("annotate without image", self.profile(path, "--annotate")[0], 2)
        self.expect("diff of one", self.profile(path, "--diff")[0], 2)

    def check_kept(self) -> None:
        """The simulator writes the kept rows still."""
        for image, machine in KEPT if self.program is not None else []:
            words = [str(self.program), "profile", str(IMAGES[image]), str(MACHINES[machine])]
            done = subprocess.run(words, capture_output=True, check=False, timeout=SECONDS)
            kept = self.kept(image, machine).read_bytes()
            self.expect(f"kept: {image} {machine}", done.stdout == kept, True)

    def check_annotate(self) -> None:
        """Annotated instructions have each row's cycles once, and the source lines."""
        if not self.has_binutils():
            return
        path, image = self.kept("branch", "wide"), IMAGES["branch"]
        words = (path, "--image", image, "--annotate", "sift_down")
        status, text, said = self.profile(*words)
        self.expect("annotate: status", (status, said), (0, ""))
        groups = by_function(read_profile(path).rows, read_functions(image))
        rows = groups["sift_down"]
        shown = re.findall(r"^ *([0-9,]+) .*? ([0-9a-f]{8})  \S", text, re.MULTILINE)
        wanted = [(f"{row.counts['cycles']:,}", f"{row.address or 0:08x}") for row in rows]
        self.expect("annotate: cycles", shown, wanted)
        source = (EXAMPLE / "heap.c").read_text().splitlines()
        cited = re.findall(r"^heap\.c:([0-9]+): (.*)$", text, re.MULTILINE)
        texts = [source[int(number) - 1].strip() for number, _ in cited]
        self.expect("annotate: source", [line for _, line in cited], texts)
        self.expect("annotate: source lines", len(cited) > 5, True)

    def check_callgrind(self) -> None:
        """callgrind_annotate reads the file, and gives each function its cycles."""
        if not self.has_binutils():
            return
        path, image = self.kept("branch", "wide"), IMAGES["branch"]
        out = self.folder / "callgrind.out"
        status, _, said = self.profile(path, "--image", image, "--callgrind", out)
        self.expect("callgrind: status", (status, said), (0, ""))
        if not shutil.which("callgrind_annotate"):
            return
        words = ["callgrind_annotate", "--threshold=100", "--show=Cycles", "--auto=no", str(out)]
        done = subprocess.run(words, capture_output=True, text=True, check=False, timeout=SECONDS)
        self.expect("callgrind_annotate: status", (done.returncode, done.stderr), (0, ""))
        found = re.findall(r"^ *([0-9,]+) \( *[0-9.]+%\)  \S*:(\w+)", done.stdout, re.MULTILINE)
        groups = by_function(read_profile(path).rows, read_functions(image))
        sums = {name: total_of(rows)["cycles"] for name, rows in groups.items()}
        wanted = {(f"{cycles:,}", name) for name, cycles in sums.items() if cycles}
        self.expect("callgrind_annotate: functions", set(found), wanted)
        total = f"{read_profile(path).total['cycles']:,}"
        self.expect("callgrind_annotate: total", f"{total} (100.0%)" in done.stdout, True)

    def check_difference(self) -> None:
        """The differences of functions and causes add up to that of the cycles."""
        old, new = self.kept("branch", "bimodal"), self.kept("arithmetic", "bimodal")
        images = ("--image", IMAGES["branch"], "--image", IMAGES["arithmetic"])
        status, text, said = self.profile("--diff", old, new, *images)
        self.expect("diff: status", (status, said), (0, ""))
        lines = [line.split(None, 4) for line in text.splitlines()[1:]]
        rise = read_profile(new).total["cycles"] - read_profile(old).total["cycles"]
        changes = [int(line[2].replace(",", "")) for line in lines if len(line) > 3]
        total = next(place for place, line in enumerate(lines) if line[3:4] == ["total"])
        self.expect("diff: total", changes[total], rise)
        self.expect("diff: functions", sum(changes[:total]), rise)
        self.expect("diff: causes", sum(changes[total + 1 :]), rise)
        for line in lines[: total + 1]:
            moved = re.findall(r"([+-][0-9,]+)", line[4]) if len(line) > 4 else []
            own = sum(int(number.replace(",", "")) for number in moved)
            self.expect(f"diff: {line[3]}", own, int(line[2].replace(",", "")))

    def check_stack(self) -> None:
        """Bars of several runs with their numbers; `stack` gives the same as the rows."""
        paths = [self.kept("branch", machine) for machine in MACHINES]
        out = self.folder / "stacks"
        status, text, said = self.profile("--stack", out, *paths)
        if matplotlib is None:
            self.expect("stack: status", (status, "no matplotlib" in said), (1, True))
        else:
            self.expect("stack: status", (status, said), (0, ""))
            self.expect("stack: PNG", out.with_suffix(".png").read_bytes()[:4], b"\x89PNG")
            self.expect("stack: SVG", "mispredict" in self.svg_texts(out), True)
        table = {line.split()[0]: line.split()[1:4] for line in text.splitlines()[1:]}
        totals = [read_profile(path).total for path in paths]
        for name in ["cycles", *NAMES]:
            numbers = [f"{total[name]:,}" for total in totals]
            if set(numbers) != {"0"}:
                self.expect(f"stack: {name}", table.get(name), numbers)
        if self.program is not None:
            self.compare_stack_command(text)

    def compare_stack_command(self, wanted: str) -> None:
        """What `stack` writes gives the same table."""
        paths = []
        for machine, file in MACHINES.items():
            words = [str(self.program), "stack", str(IMAGES["branch"]), str(file)]
            done = subprocess.run(words, capture_output=True, check=False, timeout=SECONDS)
            paths.append(self.folder / f"branch.{machine}.txt")
            paths[-1].write_bytes(done.stdout)
        _, text, _ = self.profile("--stack", self.folder / "stacks", *paths)
        rows = [line for line in wanted.splitlines() if "stacks" not in line]
        self.expect("stack: of `stack`", text.splitlines()[: len(rows)], rows)

    @staticmethod
    def svg_texts(path: Path) -> str:
        """The texts of a picture, which matplotlib keeps as comments."""
        return " ".join(re.findall(r"<!-- (.*?) -->", path.with_suffix(".svg").read_text()))

    @staticmethod
    def has_binutils() -> bool:
        """Whether there is an objdump for RISC-V."""
        return any(shutil.which(f"{prefix}objdump") for prefix in PREFIXES)


def self_test(fast: Path | None) -> int:
    """Runs all checks; says what went wrong."""
    return run_checks("profile", lambda folder: SelfTest(folder, fast))
