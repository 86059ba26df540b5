"""The test of `tools/pipeline`. Silent where it passes.

Traces are those worked by hand and ones that are made here line by line; the page is used in a
browser where one is installed, and the kept trace is made anew where a simulator is given.
"""

import contextlib
import io
import json
import subprocess
from pathlib import Path
from typing import Any

from shared_lib.checks import Checks, run_checks

from . import pipeline_command
from .browser import find_browser, result_of_check
from .elf import Functions, read_functions
from .page import FOLDER, Shown, page_of
from .trace import Fate, Trace, read_trace

REPOSITORY = Path(__file__).resolve().parent.parent.parent
EXAMPLE = REPOSITORY / "examples" / "insight"
IMAGE = EXAMPLE / "branch.elf"
MACHINE = REPOSITORY / "examples" / "machines" / "wide.toml"
KEPT = EXAMPLE / "branch.wide.kanata"
KEPT_RANGE = ["--from", "60000", "--to", "60040"]
MOST_MILLISECONDS = 50
LARGE = 100_000

# Four instructions and two that can't be fetched, worked by hand.
SMALL = """\
Kanata 0004
C= 0
I 0 0 0|L 0 0 80000000: 001002b7 lui x5,0x100|S 0 0 F
C 1|S 0 0 X|I 1 1 0|L 1 0 80000004: 00005337 lui x6,0x5|S 1 0 F
C 1|S 0 0 C|S 1 0 X|I 2 2 0|L 2 0 80000008: 55530313 addi x6,x6,1365|S 2 0 F|W 2 1 0
C 1|R 0 0 0|S 1 0 C|S 2 0 X|I 3 3 0|L 3 0 8000000c: 0062a023 sw x6,0(x5)|S 3 0 F|W 3 2 0
C 1|R 1 1 0|S 2 0 C|L 3 1 store 00100000 device; |S 3 0 X|I 4 4 0|\
L 4 0 80000010: 00000000 not fetched|S 4 0 F
C 1|R 2 2 0|S 3 0 C|S 4 0 X|I 5 5 0|L 5 0 80000014: 00000000 not fetched|S 5 0 F
C 1|R 3 3 0|S 5 0 Q
C 1
"""

WRONG = {
    "is empty": "",
    "no trace in the format": "Kanata 0003\n",
    "line 2: 'X\\t1'": "Kanata 0004\nX 1\n",
    "line 2: 'C\\t-1'": "Kanata 0004\nC -1\n",
    "line 2: 'I\\t1\\t0\\t0'": "Kanata 0004\nI 1 0 0\n",
    "line 2: 'S\\t0\\t0\\tF'": "Kanata 0004\nS 0 0 F\n",
    "line 4: 'R\\t0\\t0\\t0'": "Kanata 0004\nI 0 0 0\nR 0 0 0\nR 0 0 0\n",
    "line 3: 'W\\t0\\t0\\t0'": "Kanata 0004\nI 0 0 0\nW 0 0 0\n",
}


def tabbed(text: str) -> list[str]:
    """The lines of a trace as it is written here: `|` ends a line too, and fields have blanks."""
    lines = []
    for line in text.replace("|", "\n").splitlines():
        word, *_ = line.split(" ")
        lines.append(line.replace(" ", "\t", 3 if word == "L" else -1))
    return lines


def ended(lines: list[str]) -> list[int]:
    """How many instructions left and were squashed, by the lines of a trace."""
    fates = [line[-1] for line in lines if line.startswith("R\t")]
    return [fates.count("0"), fates.count("1")]


def large_trace() -> tuple[list[str], dict[str, int]]:
    """The lines of a large trace, two instructions a cycle, and what they tell."""
    lines = ["Kanata\t0004", "C=\t5"]
    counts = {"left": 0, "squashed": 0, "mispredicted": 0, "dcache": 0}
    for place in range(0, LARGE, 2):
        is_wrong = place % 40 == 0
        for row in (place, place + 1):
            lines += [
                f"I\t{row}\t{row}\t0",
                f"L\t{row}\t0\t{0x80000000 + row % 400 * 4:08x}: 00000013 nop",
            ]
            lines += [f"S\t{row}\t0\tF"] + ([f"W\t{row}\t{row - 3}\t0"] if row > 3 else [])
        old = place - 20
        if old >= 0:
            is_gone = old % 40 == 2
            for row in (old, old + 1):
                if row % 100 == 7:
                    lines.append(f"L\t{row}\t1\tdcache miss 9; ")
                    counts["dcache"] += 1
                lines.append(f"R\t{row}\t{row}\t{int(is_gone)}")
                counts["squashed" if is_gone else "left"] += 1
        for row in (place - 8, place - 7):
            lines += [f"S\t{row}\t0\tX"] if row >= 0 else []
        if is_wrong:
            lines.append(f"L\t{place}\t1\tmispredicted: to 80000000, predicted 80000004; ")
            counts["mispredicted"] += 1
        lines.append("C\t1")
    return lines, counts


class SelfTest(Checks):
    """The checks, with a browser and a simulator where these are there."""

    def __init__(self, folder: Path, program: Path | None):
        super().__init__(folder)
        self.program = program
        self.browser = find_browser()

    def check_small(self) -> None:
        """The trace that was worked by hand."""
        trace = read_trace(tabbed(SMALL), "small")
        self.expect("small: cycles", (trace.begin, trace.end), (0, 7))
        self.expect("small: fates", [trace.count(fate) for fate in Fate], [4, 0, 2])
        self.expect("small: first cycles", [one.first for one in trace.records], [0, 1, 2, 3, 4, 5])
        ends = [one.end for one in trace.records]
        self.expect("small: ends", ends, [3, 4, 5, 6, None, None])
        self.expect("small: stages", trace.records[3].stages, [(0, "F"), (1, "X"), (2, "C")])
        self.expect("small: producers", trace.records[3].producers, [2])
        self.expect("small: note", trace.records[3].notes, "store 00100000 device; ")
        if self.browser:
            self.compare_page(trace, Functions([]))

    def check_wrong(self) -> None:
        """A wrong trace ends with one line that says where, and no page is written."""
        path, page = self.folder / "wrong.kanata", self.folder / "wrong.html"
        for wanted, text in WRONG.items():
            path.write_text("".join(f"{line}\n" for line in tabbed(text)))
            said = io.StringIO()
            with contextlib.redirect_stderr(said):
                status = pipeline_command.main([str(path), "--html", str(page)])
            one_line = said.getvalue().count("\n") == 1 and wanted in said.getvalue()
            self.expect(f"{wanted} ({said.getvalue().strip()})", (status, one_line), (2, True))
        self.expect("wrong: page", page.exists(), False)

    def check_functions(self) -> None:
        """The functions of the example's image."""
        functions = read_functions(IMAGE)
        names = {function.name for function in functions.all}
        wanted = {"_start", "sift_down", "heap_sort", "fill", "is_sorted", "finish", "main"}
        self.expect("functions", names, wanted)
        first = next(one for one in functions.all if one.name == "sift_down")
        inside = [functions.at(first.address), functions.at(first.address + first.size - 4)]
        self.expect("functions: inside", inside, [first, first])
        self.expect("functions: before all", functions.at(0x7FFFFFFC), None)

    def check_kept(self) -> None:
        """The kept trace: the page shows what it tells, and the simulator writes it still."""
        lines = KEPT.read_text().splitlines()
        if self.program is not None:
            words = [str(self.program.absolute()), "trace", str(IMAGE), str(MACHINE), *KEPT_RANGE]
            done = subprocess.run(words, capture_output=True, text=True, check=False, timeout=60)
            self.expect("kept: trace", done.stdout.splitlines() == lines, True)
        if self.browser:
            trace, functions = read_trace(lines, "kept"), read_functions(IMAGE)
            found = self.compare_page(trace, functions, "sift_down")
            names = [functions.at(int(record.label[:8], 16)) for record in trace.records]
            inside = [one for one in names if one and one.name == "sift_down"]
            self.expect("kept: search for a function", found.get("searched", [])[2:], [len(inside)])
            self.expect("kept: counts", found.get("counts", [])[:2], ended(lines))
            wrong = sum("\tmispredicted: to " in line for line in lines)
            self.expect("kept: mispredicted", found.get("marks", {}).get("mispredicted"), wrong)

    def check_two(self) -> None:
        """Two traces of a program, of which the second begins later, are moved together."""
        if not self.browser:
            return
        lines = KEPT.read_text().splitlines()
        late = ["Kanata\t0004", "C=\t70000", *lines[2:]]
        traces = [read_trace(lines, "kept"), read_trace(late, "late")]
        shown = [Shown(trace, Functions([]), f"trace {trace.begin}") for trace in traces]
        found = self.use_page(page_of(*shown), [])
        together = found.get("together", [])
        self.expect("two: in use", [used for used, _, _ in together], [True] * 3)
        moved = [(one > 0, round(one - two, 6)) for _, one, two in together]
        self.expect("two: places", moved, [(True, 0)] * 3)
        numbers = found.get("both", [])
        self.expect("two: selected", (len(numbers), len(set(numbers))), (2, 1))
        self.expect("two: panel", "In both traces" in found.get("aboutBoth", ""), True)

    def check_large(self) -> None:
        """A page of 100,000 instructions: its counts, and how long a picture of it takes."""
        if not self.browser:
            return
        lines, counts = large_trace()
        trace = read_trace(lines, "large")
        found = self.compare_page(trace, Functions([]))
        own = {name: counts[name] for name in ("mispredicted", "dcache")}
        marks = found.get("marks", {})
        self.expect("large: marks", {name: marks.get(name) for name in own}, own)
        fates = [counts["left"], counts["squashed"]]
        self.expect("large: fates", found.get("counts", [])[:2], fates)
        for zoom in ("usual", "widest"):
            time = found.get(zoom, 1e9)
            if time > MOST_MILLISECONDS:
                self.faults.append(f"large: a picture at the {zoom} zoom takes {time:.1f} ms")

    def compare_page(self, trace: Trace, functions: Functions, *words: str) -> dict[str, Any]:
        """Uses the page of a trace as a user does, and compares what it shows with the trace."""
        page = page_of(Shown(trace, functions, "a <title> & more"))
        found = self.use_page(page, ["8000", "no such text", *words])
        fates = [trace.count(fate) for fate in Fate]
        self.expect("page: counts", found.get("counts"), fates)
        self.expect("page: fetched", found.get("fetched"), len(trace.records))
        self.expect("page: cycles", found.get("cycles"), [trace.begin, trace.end])
        head = f"cycles {trace.begin} to {trace.end}: {len(trace.records)} fetched, "
        head += f"{fates[0]} left, {fates[1]} squashed"
        self.expect("page: head", found.get("head"), head)
        self.expect("page: all in view", found.get("all"), [True, True])
        self.expect("page: zoomed in", found.get("zoomedIn"), True)
        self.expect("page: diagonal", all(seen for _, seen in found.get("wheel", [])), True)
        self.expect("page: searched", found.get("searched", [])[:2], [len(trace.records), 0])
        self.expect("page: shown", found.get("shown"), fates[0] + fates[2])
        place = min(3, len(trace.records) - 1)
        self.expect("page: selected", found.get("selected"), place)
        address, _, text = trace.records[place].label.split(" ", 2)
        about = f"{address.rstrip(':')} {text}"
        self.expect("page: panel", found.get("about", "").startswith(about), True)
        self.expect("page: measured", found.get("measured"), place)
        self.expect("page: keys", found.get("keys"), True)
        return found

    def use_page(self, page: str, words: list[str]) -> dict[str, Any]:
        """What the check in a page finds; there may be nothing on the console."""
        assert self.browser is not None
        script = f"const WANTED = {json.dumps(words)};\n{(FOLDER / 'check.js').read_text()}"
        path = self.folder / "page.html"
        path.write_text(page.replace("</body>", f"<script>\n{script}</script>\n</body>"))
        found, said = result_of_check(self.browser, path)
        self.expect("page: console", said, [])
        if found is None:
            self.faults.append("page: its check didn't end")
            return {}
        return json.loads(found)


def self_test(fast: Path | None) -> int:
    """Runs all checks; says what went wrong."""
    return run_checks("pipeline", lambda folder: SelfTest(folder, fast))
