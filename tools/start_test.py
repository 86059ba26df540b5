#!/usr/bin/env python3
"""Tests tools/start: the help text against docs/COMMANDS.md, and what is said of refused words.

Silent, with status 0, where it passes.
"""

import os
import re
import subprocess
import sys
from collections.abc import Iterator
from pathlib import Path

REPOSITORY = Path(__file__).resolve().parent.parent
START = REPOSITORY / "tools" / "start"
HELP = (START / "help.txt").read_text()
COMMANDS = (REPOSITORY / "docs" / "COMMANDS.md").read_text()

REFUSED = {
    "": 'no command was given; "./fast --help" says more',
    "rum a b": '"rum" is no command; is "run" meant? "./fast --help" says more',
    "frobnicate": '"frobnicate" is no command; "./fast --help" says more',
    "run a": 'run lacks MACHINE; "./fast help run" says more',
    "sweep a": 'sweep lacks MACHINES; "./fast help sweep" says more',
    "func a b": '"b" is a word too many; "./fast help func" says more',
    "inorder a b c d": '"d" is a word too many; "./fast help inorder" says more',
    "inorder a b c": '"./fast help inorder" says more',
    "inorder a": 'inorder lacks MACHINE; "./fast help inorder" says more',
    "run a b --cycle 3": (
        '"--cycle" is no option; is "--cycles" meant? "./fast help run" says more'
    ),
    "func a --threads=2": 'func has no option "--threads"; "./fast help func" says more',
    "func a --ring 1 --ring 2": 'func has no option "--ring"; "./fast help func" says more',
    "run a b --ring 1 --ring=2": '"--ring" stands twice; "./fast help run" says more',
    "run a b --pipeline lane": (
        '--pipeline takes window or inorder; "./fast help run" says more'
    ),
    "run a --exit-code": 'run lacks MACHINE; "./fast help run" says more',
    "run a --exit-code b c": '"c" is a word too many; "./fast help run" says more',
    "func a --exit-code --cycles 9": "",
    "func a --exit-code=1": '"--exit-code" takes no value; "./fast help func" says more',
    "count": 'count lacks IMAGE; "./fast help count" says more',
    "stack a": 'stack lacks MACHINE; "./fast help stack" says more',
    "trace a b --from x": (
        '"x" is no number, and --from wants one; "./fast help trace" says more'
    ),
    "stack a b --to 9": 'stack has no option "--to"; "./fast help stack" says more',
    "profile a b --exit-code": (
        'profile has no option "--exit-code"; "./fast help profile" says more'
    ),
    "count a --exit-code": 'count has no option "--exit-code"; "./fast help count" says more',
    "back a b --exit-code": 'back has no option "--exit-code"; "./fast help back" says more',
    "gdb a --ring 1": 'gdb has no option "--ring"; "./fast help gdb" says more',
    "run a b --pipeline inorder c": '"c" is a word too many; "./fast help run" says more',
    "run a b --threads 3": '--threads takes 1 to 2; "./fast help run" says more',
    "run a b --cycles 0": '--cycles takes 1 to 1099511627776; "./fast help run" says more',
    "func a --cycles x": '"x" is no number, and --cycles wants one; "./fast help func" says more',
    "func a --input": '"--input" has no name; "./fast help func" says more',
    "soak x": '"x" is no number, and soak wants one; "./fast help soak" says more',
    "soak 99999999999999999999": '"./fast help soak" says more',
}


def forms_of_help() -> list[str]:
    """The forms of the commands, without the program's name."""
    return sorted(re.findall(r"^\{fast\} ([a-z].*)$", HELP, re.M))


def forms_of_document() -> list[str]:
    """The same in the document."""
    words = COMMANDS.split("\n## Words\n\n")[1].split("\n\n")[0]
    return sorted(line.strip() for line in words.split("\n"))


def options_of_document() -> Iterator[str]:
    """How a line of the help text begins for each option with a number."""
    row = re.compile(r"^\| `(--\w+ N)` \| ([^|]*) \| ([^|]*) \|", re.M)
    for name, values, usual in row.findall(COMMANDS):
        yield f"  {name.ljust(12)}  {values} ({usual}): "


def said_of(words: str) -> str:
    """What is said of refused words."""
    return subprocess.run(
        ["awk", "-f", str(START / "refused.awk"), "--", *words.split()],
        env={**os.environ, "called": "./fast", "texts": str(START)},
        capture_output=True,
        text=True,
        check=True,
    ).stdout


def faults() -> Iterator[str]:
    """All that is wrong."""
    if forms_of_help() != forms_of_document():
        yield f"help.txt has the forms {forms_of_help()}, COMMANDS.md {forms_of_document()}"
    for begin in options_of_document():
        if f"\n{begin}" not in HELP:
            yield f"help.txt has no line {begin!r}"
    for words, wanted in REFUSED.items():
        if said_of(words) != (f"fast: {wanted}\n" if wanted else ""):
            yield f"of {words!r} is said {said_of(words)!r}"


def main() -> int:
    """Tests, and gives the exit status."""
    found = list(faults())
    for fault in found:
        print(f"start_test: {fault}", file=sys.stderr)
    return 1 if found else 0


sys.exit(main())
