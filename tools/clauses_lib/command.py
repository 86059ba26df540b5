"""The command line of `tools/clauses`."""

import argparse
import sys
from pathlib import Path

from .crates import read_crates
from .page import page_of
from .reads import table_of
from .source import SourceFault

REPOSITORY = Path(__file__).resolve().parent.parent.parent
PAGE = Path("docs", "CLAUSES.md")


def main(words: list[str]) -> int:
    """Does what the words say, and gives the exit status."""
    options = parser().parse_args(words)
    if options.self_test:
        from .self_test import self_test

        return self_test(REPOSITORY)
    if options.reads:
        names = [crate.name for crate in read_crates(REPOSITORY)]
        print("\n".join(table_of(REPOSITORY, names)))
        return 0
    try:
        text = page_of(read_crates(REPOSITORY))
    except SourceFault as fault:
        return say(str(fault))
    path = REPOSITORY / PAGE
    if not options.check:
        path.write_text(text)
        return 0
    if not path.exists() or path.read_text() != text:
        return say(f"{PAGE} is not up to date; tools/clauses makes it anew")
    return 0


def say(fault: str) -> int:
    """Says what is wrong, and gives the exit status."""
    print(f"clauses: {fault}", file=sys.stderr)
    return 1


def parser() -> argparse.ArgumentParser:
    """The words that are understood."""
    words = argparse.ArgumentParser(
        prog="tools/clauses", description=f"Makes {PAGE} from the contracts in the sources."
    )
    words.add_argument("--check", action="store_true", help="only say whether it is up to date")
    words.add_argument(
        "--reads", action="store_true", help="list the definitions under the top call's clauses"
    )
    words.add_argument("--self-test", action="store_true", help="test this program")
    return words
