"""The command line of `tools/profile`."""

import argparse
import sys
from pathlib import Path

from shared_lib.faults import Fault, InputFault
from shared_lib.files import write_whole

from .annotated import annotate
from .callgrind import callgrind_text
from .elf import Functions, read_functions
from .rows import read_profile, read_stack
from .stacks import draw_stacks
from .tables import difference_table, function_table, stack_table


def main(words: list[str]) -> int:
    """Does what the words say, and gives the exit status."""
    options = parser().parse_args(words)
    try:
        if options.self_test:
            from .profile_test import self_test

            return self_test(options.fast)
        if not options.rows:
            parser().error("the input is missing: ROWS")
        return show(options)
    except Fault as fault:
        print(f"profile: {fault}", file=sys.stderr)
        return fault.status
    except OSError as fault:
        print(f"profile: {fault.filename or 'a file'}: {fault.strerror}", file=sys.stderr)
        return Fault.status


def show(options: argparse.Namespace) -> int:
    """Shows what is asked for."""
    if options.stack is not None:
        return show_stacks(options)
    if options.diff:
        return show_difference(options)
    if len(options.rows) != 1:
        raise InputFault("several ROWS go with --stack, and two with --diff")
    profile = read_profile(options.rows[0])
    image = options.image[0] if options.image else None
    functions = read_functions(image) if image else Functions([])
    if image is None and (options.annotate is not None or options.callgrind):
        raise InputFault("--annotate and --callgrind need --image")
    if options.callgrind:
        write_whole(options.callgrind, callgrind_text(profile, functions, image))
    if options.annotate is not None:
        print(annotate(profile, functions, image, options.annotate), end="")
    if not options.callgrind and options.annotate is None:
        print(function_table(profile, functions), end="")
    return 0


def show_stacks(options: argparse.Namespace) -> int:
    """Writes the bars of several runs, and their numbers."""
    stacks = {path.stem: read_stack(path) for path in options.rows}
    if len(stacks) < len(options.rows):
        raise InputFault("two ROWS have the same name, and a bar is called by it")
    print(stack_table(stacks), end="")
    for path in draw_stacks(stacks, options.stack):
        print(path)
    return 0


def show_difference(options: argparse.Namespace) -> int:
    """Writes what a change moved. One image stands for both runs, or the first for the old one."""
    if len(options.rows) != 2:
        raise InputFault("--diff needs two ROWS: OLD NEW")
    old, new = map(read_profile, options.rows)
    if old.unit != new.unit:
        raise InputFault(f"{old.name} has {old.unit}, and {new.name} has {new.unit}")
    images = [read_functions(path) for path in options.image] or [Functions([])]
    print(difference_table(old, new, images[0], images[-1]), end="")
    return 0


def parser() -> argparse.ArgumentParser:
    """The words that are known."""
    words = argparse.ArgumentParser(
        prog="profile",
        description="Shows where the cycles of a run went, from rows by address: by function, by "
        "instruction, by cause.",
        epilog="docs/INSIGHT.md says how it is read.",
        allow_abbrev=False,
    )
    add = words.add_argument
    add("rows", metavar="ROWS", nargs="*", type=Path, help="rows by address (CSV)")
    text = "the image, for its functions and instructions; with --diff perhaps twice, OLD and NEW"
    add("--image", metavar="ELF", type=Path, action="append", default=[], help=text)
    text = "the instructions of a function, or of all, with their counts and source lines"
    add("--annotate", metavar="FUNCTION", nargs="?", const="", help=text)
    text = "write a file for callgrind_annotate and KCachegrind"
    add("--callgrind", metavar="OUT", type=Path, help=text)
    text = "write bars of several ROWS, or of reports with stacks, as NAME.png and NAME.svg"
    add("--stack", metavar="NAME", type=Path, help=text)
    add("--diff", action="store_true", help="what a change moved: two ROWS, OLD NEW")
    add("--self-test", action="store_true", help="test this program; silent where it passes")
    text = "for --self-test: a simulator whose rows have to be the ones that are kept"
    add("--fast", metavar="PATH", type=Path, help=text)
    return words
