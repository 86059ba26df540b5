#!/usr/bin/env python3
"""How many times as long as the reference `fast` takes on one thread: bench/ratios.py [options]

The loops of bench/run.sh and the compiled C program run under machines of examples/machines, cut off after so many cycles,
and without a pipeline. Both programs run in turn, and have to write the same. The ratio is that of their processor times:
the geometric mean over the rounds, with its standard error; 0.5 says that `fast` takes half as long. Printed is a row for
each, as bench/results/ratios.csv has them; --add puts the rows there. The reference is that of the repository unless
--reference names another program with its words; `make -C reference` builds it. It is no part of the gate.
"""
import argparse
import csv
import datetime
import os
import re
import subprocess
import sys
import tempfile
from pathlib import Path

from in_turn import ratio_of

REPOSITORY = Path(__file__).resolve().parent.parent
RESULTS = REPOSITORY / "bench" / "results" / "ratios.csv"
COLUMNS = "host,commit,date,program,against,command,image,machine,cycles,clock,statistic,ratio,standard_error".split(",")
BASE = 0x80000000
# Each command with its image, its machine and its cycles, or steps.
RUNS = [
    *[("func", image, "", 10_000_000) for image in ("arithmetic", "memory", "division", "compiled")],
    *[("run", image, "wide", 1_000_000) for image in ("compiled", "branches", "arithmetic", "memory", "division")],
    *[("run", image, "plain", 3_000_000) for image in ("compiled", "branches", "arithmetic")],
    *[("run", image, "deep", 300_000) for image in ("compiled", "branches", "memory")],
    *[("inorder", "compiled", machine, 1_000_000) for machine in ("plain", "wide")],
]


def arguments():
    """The options."""
    parser = argparse.ArgumentParser(prog="ratios.py", description=__doc__.split("\n", maxsplit=1)[0])
    add = parser.add_argument
    add("--fast", type=Path, default=REPOSITORY / "out" / "fast", help="the program (out/fast)")
    add("--reference", type=Path, default=REPOSITORY / "reference" / "out" / "reference")
    add("--rounds", type=int, default=15, help="how often both programs run (15)")
    add("--share", type=float, default=1, help="of the cycles, as 0.1 on a slow host (1)")
    add("--host", default="another", help="the rows' host, as bench/results/README.md names it (another)")
    add("--program", default="gate", help="which program it is, as there (gate)")
    add("--against", default="reference", help="which one the reference is (reference)")
    add("--add", action="store_true", help="add the rows to bench/results/ratios.csv")
    return parser.parse_args()


def loops(reference, folder):
    """Makes the images of the loops, whose words stand in bench/run.sh."""
    text = (REPOSITORY / "bench" / "run.sh").read_text()
    for words, name in re.findall(r'^image ((?:0x[0-9a-f]{8}[ \\\n]+)+)>"\$work/(\w+)"', text, re.MULTILINE):
        segment = f"{BASE:x}:1:{','.join(word[2:] for word in re.findall('0x[0-9a-f]+', words))}"
        subprocess.run([reference, "mkelf", folder / name, f"{BASE:x}", segment], check=True)


def timed(command):
    """The processor seconds of a run, and what it wrote."""
    with subprocess.Popen(command, stdout=subprocess.PIPE) as process:
        output = process.stdout.read()
        _, _, used = os.wait4(process.pid, 0)
        process.returncode = 0
    return used.ru_utime + used.ru_stime, output


def times_of(commands, rounds, name):
    """The processor seconds of each command, in each round."""
    times = [[] for _ in commands]
    for _ in range(rounds):
        answers = [timed(command) for command in commands]
        if len({output for _, output in answers}) > 1:
            sys.exit(f"ratios.py: {name}: the programs write something else")
        for own, (seconds, _) in zip(times, answers):
            own.append(max(seconds, 0.001))
    return times


def row_of(options, folder, run):
    """The row of a run."""
    command, image, machine, cycles = run
    cycles = max(int(cycles * options.share), 1)
    path = REPOSITORY / "bench" / "compiled" / "mix.elf" if image == "compiled" else folder / image
    words = [command, path]
    if machine:
        words += [REPOSITORY / "examples" / "machines" / f"{machine}.toml"]
    words += ["/dev/null"] if command == "inorder" else []
    words += ["--cycles", str(cycles)] + (["--threads", "1"] if command == "run" else [])
    programs = [[options.reference, *words], [options.fast, *words]]
    first, own = times_of(programs, options.rounds, f"{command} {image} {machine}")
    ratio, error = ratio_of(own, first)
    head = ["git", "-C", REPOSITORY, "rev-parse", "--short=7", "HEAD"]
    commit = subprocess.run(head, capture_output=True, text=True, check=True).stdout.strip()
    return [
        *(options.host, commit, datetime.date.today().isoformat(), options.program, options.against),
        *(command, image, machine, cycles, "processor", f"mean of {options.rounds}", f"{ratio:.2f}", f"{error:.2f}"),
    ]


def main():
    options = arguments()
    for program in (options.fast, options.reference):
        if not os.access(program, os.X_OK):
            sys.exit(f"ratios.py: {program} isn't there")
    written = csv.writer(sys.stdout, lineterminator="\n")
    written.writerow(COLUMNS)
    rows = []
    with tempfile.TemporaryDirectory() as folder:
        loops(options.reference, Path(folder))
        for run in RUNS:
            rows.append(row_of(options, Path(folder), run))
            written.writerow(rows[-1])
            sys.stdout.flush()
    if options.add:
        is_new = not RESULTS.exists()
        with RESULTS.open("a", newline="") as file:
            csv.writer(file, lineterminator="\n").writerows(([COLUMNS] if is_new else []) + rows)


main()
