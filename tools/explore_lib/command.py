"""The command line of `tools/explore`."""

import argparse
import importlib.util
import signal
import sys
from collections.abc import Callable
from pathlib import Path

from shared_lib.faults import Fault

from .batches import MOST_IN_BATCH
from .exploring import Exploration, Plan
from .journal import Journal, Lock, Work, open_journals, other_rows
from .picture_file import fit_stacks
from .space import Extras, Space
from .space_file import read_space
from .table import Entry, entries_of, write_means, write_table

REPOSITORY = Path(__file__).resolve().parent.parent.parent
USUAL_BATCH = 16
BROKEN_OFF = 130


def main(words: list[str]) -> int:
    """Does what the words say, and gives the exit status."""
    options = parser().parse_args(words)
    try:
        if options.self_test:
            from .self_test import self_test

            return self_test(options.fast)
        if options.space is None:
            parser().error("the input is missing: SPACE")
        return explore(options)
    except Fault as fault:
        say(str(fault))
        return fault.status
    except OSError as fault:
        say(f"{fault.filename or 'a file'}: {fault.strerror}")
        return Fault.status
    except KeyboardInterrupt:
        say("broken off; the same command goes on from here")
        return BROKEN_OFF


def say(text: str) -> None:
    """Says a line on standard error."""
    print(f"explore: {text}", file=sys.stderr)


def explore(options: argparse.Namespace) -> int:
    """Checks the input, runs what is missing, and writes the table and the pictures."""
    space = fit_stacks(read_space(options.space), options.stacks)
    if options.check:
        suite = f", {space.title}" if space.is_suite else ""
        print(f"{options.space}: {space.size} machines{suite}, {', '.join(space.varied)} vary")
        return 0
    for sign in (signal.SIGTERM, signal.SIGHUP):
        signal.signal(sign, signal.default_int_handler)
    plan = plan_of(options)
    if space.pictures and not plan.is_quiet and importlib.util.find_spec("matplotlib") is None:
        say(
            "there will be no pictures: this Python has no matplotlib "
            "(the same words and --draw make them later)"
        )
    with Lock(plan.folder):
        if options.draw:
            return redraw(space, plan)
        exploration = Exploration(space, plan, (lambda _: None) if plan.is_quiet else say)
        try:
            exploration.run()
        except BaseException:
            tabulate(space, exploration.journals, plan)
            raise
        return finish(space, exploration.journals, plan)


def plan_of(options: argparse.Namespace) -> Plan:
    """How the options say that it is run."""
    usual = options.space.absolute().parent / "out" / options.space.stem
    return Plan(
        folder=(options.folder or usual).absolute(),
        fast=options.fast,
        on=options.on,
        jobs=options.jobs,
        batch=options.batch,
        logins=options.sshlogin,
        is_shared=options.shared,
        sbatch=options.sbatch,
        extras=Extras(options.squashed, options.stacks),
        is_quiet=options.quiet,
    )


def tabulate(space: Space, journals: dict[Work, Journal], plan: Plan) -> list[Entry]:
    """Writes the table of the rows that are there, and of a suite that of its means."""
    entries = entries_of(space, list(journals.values()))
    write_table(plan.folder / "rows.csv", space, entries, plan.extras)
    if space.is_suite:
        write_means(plan.folder / "machines.csv", space, entries)
    return entries


def redraw(space: Space, plan: Plan) -> int:
    """Writes the table and the pictures anew, where there are rows."""
    journals = open_journals(plan.folder, space, plan.extras)
    others = other_rows(plan.folder, journals)
    if others and not plan.is_quiet:
        say(f"{others}; they are kept")
    if not entries_of(space, list(journals.values())):
        raise Fault("no machine has its row; table and pictures stay as they are")
    return finish(space, journals, plan)


def finish(space: Space, journals: dict[Work, Journal], plan: Plan) -> int:
    """Writes the table and the pictures, and says where they are."""
    entries = tabulate(space, journals, plan)
    rows = [row for entry in entries for row in entry.rows if row is not None]
    refused = sum(row.is_refused for row in rows)
    if not plan.is_quiet:
        text = f"{len(rows)} of {space.run_count} {space.run_name}, {refused} of them refused"
        print(f"{plan.folder / 'rows.csv'}: {text}")
        if space.is_suite:
            print(plan.folder / "machines.csv")
    if not space.pictures or refused == len(rows):
        return 0
    from .pictures import draw

    for path in draw(space, entries, plan.folder):
        if not plan.is_quiet:
            print(path)
    return 0


def whole(low: int, high: int) -> Callable[[str], int]:
    """What reads a whole number of a range."""

    def read(word: str) -> int:
        if not word.isascii() or not word.isdecimal() or not low <= int(word) <= high:
            raise argparse.ArgumentTypeError(f"{word!r} is no number from {low} to {high}")
        return int(word)

    return read


def parser() -> argparse.ArgumentParser:
    """The words that are known."""
    words = argparse.ArgumentParser(
        prog="explore",
        description="Runs an image, or a suite of images, on each machine of a space by `fast "
        "sweep`, and writes a row of CSV for each run, and pictures. A run that was broken off "
        "goes on from where it stopped.",
        epilog="docs/EXPLORE.md has the input and all that is written.",
        allow_abbrev=False,
    )
    add = words.add_argument
    add("space", metavar="SPACE", nargs="?", type=Path, help="the input: a TOML file")
    add("--folder", type=Path, help="where all that is written goes (out/NAME beside the input)")
    text = "the simulator (that of the repository)"
    add("--fast", metavar="PATH", type=Path, default=REPOSITORY / "fast", help=text)
    add("--check", action="store_true", help="check the input, and run nothing")
    add("--draw", action="store_true", help="write table and pictures of the rows that are there")
    text = "add the column squashed, by a `fast run` of each machine as well: slower"
    add("--squashed", action="store_true", help=text)
    text = "add a column for each cause of cycles, and a picture of them, by a `fast stack` of each"
    add("--stacks", action="store_true", help=text)
    text = f"machines in a call of sweep, 1 to {MOST_IN_BATCH} ({USUAL_BATCH})"
    add("--batch", metavar="N", type=whole(1, MOST_IN_BATCH), default=USUAL_BATCH, help=text)
    add("--quiet", action="store_true", help="say nothing but what is wrong")
    add("--self-test", action="store_true", help="test this program; silent where it passes")
    add_workers(words.add_argument_group("who runs the batches"))
    return words


def add_workers(group: argparse._ArgumentGroup) -> None:
    """The words that say who runs the batches."""
    add = group.add_argument
    add("--on", choices=["here", "parallel", "slurm"], default="here", help="(here)")
    text = "batches at a time: here (1), or on each of GNU parallel's computers (as many as cores)"
    add("--jobs", metavar="N", type=whole(1, 1024), help=text)
    text = "GNU parallel's computers, as it takes them, such as 4/one,4/two; may be repeated"
    add("--sshlogin", metavar="LOGINS", action="append", default=[], help=text)
    text = "these computers see the folder under the same path: nothing is copied"
    add("--shared", action="store_true", help=text)
    text = "an option for sbatch, such as --sbatch=--partition=long; may be repeated"
    add("--sbatch", metavar="OPTION", action="append", default=[], help=text)
