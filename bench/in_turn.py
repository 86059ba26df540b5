#!/usr/bin/env python3
"""Compares programs on a host that changes its speed: bench/in_turn.py [--rounds N] PROGRAM.. -- WORDS..

Each PROGRAM is run on the same WORDS, once in a round and in a new order in each, so that what slows one down for a while
slows down its neighbours too. A PROGRAM may carry words of its own, which go behind the others: 'out/fast --threads 1'.
Printed are the lowest time and the median in milliseconds by the clock, and how many times as long as the first PROGRAM it
takes: the geometric mean over the rounds, with its standard error. Many short runs (some 50 milliseconds each) tell more
than few long ones. All programs have to write the same. As in

    bench/in_turn.py --rounds 40 reference/out/reference 'out/fast --threads 1' -- run IMAGE MACHINE --cycles 100000

reference/out/reference is the simulator in C++ that `make -C reference` builds. bench/ratios.py writes such means for many
images and machines. By root it runs them at real-time priority; --processors 0,1 keeps them on these processors. It is
no part of the gate.
"""
import argparse
import math
import os
import random
import shlex
import statistics
import subprocess
import sys
import time


def arguments():
    """The options and programs before `--`, and the words behind it."""
    words = sys.argv[1:]
    if "--" not in words:
        sys.exit(__doc__.split("\n", maxsplit=1)[0])
    cut = words.index("--")
    parser = argparse.ArgumentParser(usage="in_turn.py [--rounds N] [--processors LIST] PROGRAM.. -- WORDS..")
    parser.add_argument("--rounds", type=int, default=25)
    parser.add_argument("--processors", type=lambda text: {int(number) for number in text.split(",")})
    parser.add_argument("programs", nargs="+")
    return parser.parse_args(words[:cut]), words[cut + 1 :]


def settle(processors):
    """What a run does before it begins: by root it goes before all else on its processors."""
    if processors:
        os.sched_setaffinity(0, processors)
    if os.geteuid() == 0:
        os.sched_setscheduler(0, os.SCHED_FIFO, os.sched_param(10))


def timed(command, processors):
    """The seconds of a run, and what it wrote."""
    start = time.perf_counter()
    done = subprocess.run(command, stdout=subprocess.PIPE, preexec_fn=lambda: settle(processors), check=False)
    return time.perf_counter() - start, done.stdout


def rounds_of(commands, rounds, processors):
    """The seconds of each command, in each round."""
    times, written = [[] for _ in commands], None
    for _ in range(rounds):
        for place in random.sample(range(len(commands)), len(commands)):
            seconds, output = timed(commands[place], processors)
            written = written or output
            if output != written:
                sys.exit(f"in_turn.py: {shlex.join(commands[place])} writes something else")
            times[place].append(seconds)
    return times


def ratio_of(times, first):
    """How many times as long as the first program one takes: the geometric mean over the rounds, and its error."""
    logs = [math.log(one / other) for one, other in zip(times, first)]
    mean = math.exp(statistics.fmean(logs))
    return mean, mean * (statistics.stdev(logs) / math.sqrt(len(logs)) if len(logs) > 1 else 0)


def told(name, times, first):
    """The line of a program, by its times and those of the first one."""
    mean, error = ratio_of(times, first)
    lowest, median = 1000 * min(times), 1000 * statistics.median(times)
    return f"{name}: {lowest:.1f} ms, median {median:.1f}, {mean:.2f} times as long (± {error:.2f})"


def main():
    options, words = arguments()
    commands = []
    for program in options.programs:
        path, *behind = shlex.split(program)
        commands.append([path, *words, *behind])
    times = rounds_of(commands, options.rounds, options.processors)
    for program, own in zip(options.programs, times):
        print(told(program, own, times[0]), flush=True)


if __name__ == "__main__":
    main()
