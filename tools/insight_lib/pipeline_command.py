"""The command line of `tools/pipeline`."""

import argparse
import sys
from dataclasses import replace
from pathlib import Path

from shared_lib.faults import Fault, InputFault
from shared_lib.files import write_whole

from .elf import Functions, read_functions
from .page import Shown, page_of
from .trace import Fate, Trace, read_trace, read_trace_file


def main(words: list[str]) -> int:
    """Does what the words say, and gives the exit status."""
    options = parser().parse_args(words)
    try:
        if options.self_test:
            from .pipeline_test import self_test

            return self_test(options.fast)
        if options.trace is None or options.html is None:
            parser().error("TRACE and --html are needed")
        return show(options)
    except Fault as fault:
        print(f"pipeline: {fault}", file=sys.stderr)
        return fault.status
    except OSError as fault:
        print(f"pipeline: {fault.filename or 'a file'}: {fault.strerror}", file=sys.stderr)
        return Fault.status


def show(options: argparse.Namespace) -> int:
    """Writes the page."""
    paths = [options.trace, *([options.other] if options.other else [])]
    if len(options.image) > len(paths):
        raise InputFault("there are more images than traces")
    images = options.image or [None]
    all_shown = [
        read_shown(path, images[min(at, len(images) - 1)]) for at, path in enumerate(paths)
    ]
    if options.title:
        all_shown[0] = replace(all_shown[0], title=options.title)
    write_whole(options.html, page_of(*all_shown))
    for shown in [] if options.quiet else all_shown:
        print(f"{options.html}: {shown.title}: {summary(shown.trace)}")
    return 0


def read_shown(path: Path, image: Path | None) -> Shown:
    """A trace with the functions of its image."""
    if path == Path("-"):
        trace = read_trace(sys.stdin, "standard input")
    else:
        trace = read_trace_file(path)
    return Shown(trace, read_functions(image) if image else Functions([]), path.stem)


def summary(trace: Trace) -> str:
    """What a trace holds, in a line."""
    counts = f"{trace.count(Fate.LEFT)} left, {trace.count(Fate.SQUASHED)} were squashed"
    text = f"{len(trace.records)} instructions, of which {counts}"
    return f"cycles {trace.begin} to {trace.end}, {text}"


def parser() -> argparse.ArgumentParser:
    """The words that are known."""
    words = argparse.ArgumentParser(
        prog="pipeline",
        description="Shows a pipeline trace in the format Kanata 0004 as one HTML page, which "
        "needs no other file.",
        epilog="docs/INSIGHT.md says how it is read. In the page, ? shows its keys.",
        allow_abbrev=False,
    )
    add = words.add_argument
    add("trace", metavar="TRACE", nargs="?", type=Path, help="the trace; - is standard input")
    add("--html", metavar="OUT", type=Path, help="the page that is written")
    text = "another trace of the same program, such as on another machine, to show below"
    add("--other", metavar="TRACE", type=Path, help=text)
    text = "the image, for the names of its functions; with --other perhaps twice"
    add("--image", metavar="ELF", type=Path, action="append", default=[], help=text)
    add("--title", metavar="TEXT", help="the page's title (the trace's name)")
    add("--quiet", action="store_true", help="say nothing but what is wrong")
    add("--self-test", action="store_true", help="test this program; silent where it passes")
    text = "for --self-test: a simulator whose trace has to be the one that is kept"
    add("--fast", metavar="PATH", type=Path, help=text)
    return words
