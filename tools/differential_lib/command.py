"""The command line of `tools/differential`."""

import argparse
import os
import sys
from pathlib import Path

from .comparing import Comparison, Plan
from .faults import Fault
from .kinds import ALL_KINDS, ITSELF, KINDS
from .simulators import REPOSITORY, find_fast, find_reference

USUAL_SECONDS = 60.0
USUAL_TIMEOUT = 120.0
BROKEN_OFF = 130


def main(words: list[str]) -> int:
    """Does what the words say, and gives the exit status."""
    options = parser().parse_args(words)
    try:
        if options.self_test:
            from .self_test import self_test

            return self_test(options.reference)
        return compare(plan_of(options))
    except Fault as fault:
        say(str(fault))
        return fault.status
    except OSError as fault:
        say(f"{fault.filename or 'a file'}: {fault.strerror}")
        return Fault.status
    except KeyboardInterrupt:
        say("broken off")
        return BROKEN_OFF


def say(text: str) -> None:
    """Says a line on standard error."""
    print(f"differential: {text}", file=sys.stderr)


def compare(plan: Plan) -> int:
    """Plays the comparison, and says what came of it."""
    comparison = Comparison(plan, say)
    comparison.run()
    totals = comparison.totals
    if totals.differing:
        say(f"{totals.differing} of {totals.seeds} seeds differ")
    elif not plan.is_quiet:
        print(f"{totals.seeds:,} seeds, {totals.calls:,} calls: all answers are the same")
    return 1 if totals.differing else 0


def plan_of(options: argparse.Namespace) -> Plan:
    """What the options ask for."""
    fast, reference = find_fast(options.fast), find_reference(options.reference)
    seconds = options.seconds
    if seconds is None and options.count is None:
        seconds = USUAL_SECONDS
    return Plan(
        fast=fast,
        reference=reference,
        kinds=kinds_of(options.kinds),
        seed=options.seed,
        seconds=seconds,
        count=options.count,
        jobs=options.jobs or len(os.sched_getaffinity(0)),
        timeout=options.timeout,
        folder=options.folder.absolute(),
        is_quiet=options.quiet,
    )


def kinds_of(text: str | None) -> list[str]:
    """The kinds that a text names; all that need `fast`, if there is none."""
    if text is None:
        return KINDS
    kinds = list(dict.fromkeys(text.split(",")))
    for kind in kinds:
        if kind not in ALL_KINDS:
            raise Fault(f"{kind!r} is no kind; the kinds are {', '.join(ALL_KINDS)}")
    return kinds


def whole(word: str) -> int:
    """A whole number from 0 on."""
    if not word.isascii() or not word.isdecimal():
        raise argparse.ArgumentTypeError(f"{word!r} is no whole number")
    return int(word)


def positive(word: str) -> int:
    """A whole number from 1 on."""
    if (number := whole(word)) == 0:
        raise argparse.ArgumentTypeError("0 is too few")
    return number


def parser() -> argparse.ArgumentParser:
    """The words that are known."""
    words = argparse.ArgumentParser(
        prog="differential",
        description="Draws programs, machine files, inputs, plans, scripts, damaged files and "
        "command lines from seeds, and compares what `fast` and the reference simulator answer to "
        "them: exit status and standard output.",
        epilog="Status 0: no difference. 1: some seeds differ; each is kept in a folder with a "
        "script that shows it again. 2: nothing could be compared.",
        allow_abbrev=False,
    )
    add = words.add_argument
    text = "the program to be tested (that of the repository)"
    add("--fast", metavar="PATH", type=Path, default=REPOSITORY / "fast", help=text)
    text = "the program whose answers are wanted (reference/, which is built if need be)"
    add("--reference", metavar="PATH", type=Path, help=text)
    text = f"how long new seeds are begun ({USUAL_SECONDS:.0f}, unless --count is there)"
    add("--seconds", metavar="N", type=positive, help=text)
    add("--seed", metavar="N", type=whole, default=1, help="the first seed (1)")
    add("--count", metavar="N", type=positive, help="how many seeds at most")
    text = (
        f"kinds of calls with commas between them: {', '.join(KINDS)} (these); {ITSELF} is the "
        "reference alone, its two machines against each other"
    )
    add("--kinds", metavar="LIST", help=text)
    add("--jobs", metavar="N", type=positive, help="seeds at a time (as many as processors)")
    text = f"seconds after which a call counts as one without an end ({USUAL_TIMEOUT:.0f})"
    add("--timeout", metavar="N", type=positive, default=USUAL_TIMEOUT, help=text)
    text = "where what differs is kept (out/differential)"
    add("--folder", type=Path, default=REPOSITORY / "out" / "differential", help=text)
    add("--quiet", action="store_true", help="say nothing but what differs or is wrong")
    add("--self-test", action="store_true", help="test this program; silent where it passes")
    return words
