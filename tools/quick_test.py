#!/usr/bin/env python3
"""Tests what tools/quick_build.py makes: tools/quick_test.py PROGRAM [QUICK]

It has to answer with the same bytes and the same status as PROGRAM, which the gate made of the same
sources: on the examples, on refused words and on 50 made programs. QUICK is made first if it isn't
named. Silent, with status 0, where all answers are the same; else lines on the first that aren't.
"""

import subprocess
import sys
import tempfile
from collections.abc import Iterator
from pathlib import Path

REPOSITORY = Path(__file__).resolve().parent.parent
EXAMPLES = REPOSITORY / "examples"
SEEDS = range(1, 51)
CYCLES = "--cycles=100000"
SECONDS = 120
MOST_SHOWN = 5
# What GDB writes to go to the end and back, and to see the registers; only `gdb` reads it.
TALK = b"$QStartNoAckMode#b0$vCont;c#a8$g#67$bc#c5$g#67"
REFUSED: list[list[str]] = [[], ["func"], ["func", "none"], ["run", __file__, __file__]]

Answer = tuple[int, bytes, bytes]


def calls() -> Iterator[list[str]]:
    """The words of each call."""
    machines = [str(path) for path in sorted(EXAMPLES.glob("machines/*.toml"))]
    for path in sorted(EXAMPLES.glob("*/*.elf")):
        image = str(path)
        yield ["func", image, CYCLES]
        yield ["count", image, CYCLES]
        yield ["sweep", image, CYCLES, *machines]
        yield ["inorder", image, machines[-1], "/dev/null", CYCLES]
        yield ["back", image, str(EXAMPLES / "back" / "session")]
        yield ["gdb", image, CYCLES]
        for machine in machines:
            yield ["run", image, machine, CYCLES, "--threads=1"]
        yield ["run", image, machines[-1], CYCLES]
    yield from REFUSED
    for seed in SEEDS:
        yield ["soak", str(seed)]


def answer(program: Path, words: list[str]) -> Answer:
    """What a program answers: its status, its output and what it says on standard error."""
    done = subprocess.run(
        [program, *words],
        input=TALK,
        capture_output=True,
        timeout=SECONDS,
        check=False,
    )
    return done.returncode, done.stdout, done.stderr


def fault_of(program: Path, quick: Path, words: list[str]) -> str | None:
    """How two programs differ in their answers to the same words, if they do."""
    wanted, got = answer(program, words), answer(quick, words)
    if wanted == got:
        return None
    shown = " ".join(word.removeprefix(f"{REPOSITORY}/") for word in words)
    return f"fast {shown}: {got!r:.200}, and the gate's program answers {wanted!r:.200}"


def compare(program: Path, quick: Path) -> list[str]:
    """All faults."""
    found = (fault_of(program, quick, words) for words in calls())
    return [fault for fault in found if fault]


def make(quick: Path) -> str | None:
    """Makes the quick program; why it failed, if it did."""
    words = [sys.executable, str(REPOSITORY / "tools" / "quick_build.py"), str(quick)]
    done = subprocess.run(words, capture_output=True, text=True, check=False)
    return (done.stderr + done.stdout).strip().split("\n")[-1] if done.returncode else None


def main(words: list[str]) -> int:
    """Does what the words say, and gives the exit status."""
    if len(words) not in (1, 2):
        sys.exit("quick_test: the words are: PROGRAM [QUICK]")
    program = Path(words[0]).absolute()
    with tempfile.TemporaryDirectory() as folder:
        quick = Path(words[1] if len(words) == 2 else f"{folder}/fast").absolute()
        fault = None if len(words) == 2 else make(quick)
        faults = [fault] if fault else compare(program, quick)
    for fault in faults[:MOST_SHOWN]:
        print(f"quick_test: {fault}", file=sys.stderr)
    if len(faults) > MOST_SHOWN:
        print(f"quick_test: {len(faults)} answers differ in all", file=sys.stderr)
    return 1 if faults else 0


if __name__ == "__main__":
    sys.exit(main(sys.argv[1:]))
