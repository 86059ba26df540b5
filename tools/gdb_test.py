#!/usr/bin/env python3
"""Tests the program's answers to GDB: tools/gdb_test.py PROGRAM [SESSION..]

Each file of tools/gdb_sessions is a session as a user sees it: what it shows, the image and the
options, and then commands with what gdb-multiarch prints. The lines were written over an
independent simulator, and gdb's own words that differ from version to version are left out. Silent,
with status 0, where all is printed; also where there is no gdb-multiarch. Else lines on the first
command of each session that is answered otherwise.
"""

import difflib
import os
import re
import shutil
import subprocess
import sys
from collections.abc import Iterable, Iterator
from dataclasses import dataclass, field
from pathlib import Path

REPOSITORY = Path(__file__).resolve().parent.parent
EXAMPLES = REPOSITORY / "examples"
SESSIONS = REPOSITORY / "tools" / "gdb_sessions"
GDB = "gdb-multiarch"
SECONDS = 60
PROMPT = "(gdb) "
HEAD = re.compile(r"(image|options): (.*)")
QUIET = ["pagination off", "confirm off", "width 0", "height 0", "style enabled off"]
ENVIRONMENT = {"LC_ALL": "C", "COLUMNS": "200", "TERM": "dumb", "DEBUGINFOD_URLS": ""}

# What GDB says differently from version to version, or from machine to machine.
LEFT_OUT = re.compile(
    r"""warning|Reading\ |Remote\ debugging|Detaching\ from|Ending\ remote|Run\ till\ exit|Continuing
    |Backtrace\ stopped|\[Inferior\ 1\ .*(detached|killed)\]|Transfer\ rate|Load(ing|ed)\ section
    |Kill(ed|\ the\ program)|.*No\ such\ file\ or\ directory|Note:\ automatically\ using
    |Following\ forward\ execution|Backward\ execution\ from""",
    re.X,
)
END = re.compile(r"No more reverse-execution history\.|Reached end of recorded history; stopping\.")
# The text of an instruction, and what GDB says of a reply.
INSTRUCTION = re.compile(r"^((=> )?0x[0-9a-f]+( <[^>]*>)?:) [a-z].*")
REPLY = re.compile(r"; remote failure reply .*")


@dataclass
class Exchange:
    """A command, and the lines that are printed of it."""

    command: str
    lines: list[str] = field(default_factory=list)


@dataclass
class Session:
    """An image with options, and what is said to it."""

    image: str
    options: list[str]
    exchanges: list[Exchange]


def plain(text: str) -> Iterator[str]:
    """The lines of a text that each version of GDB prints, with one blank between words."""
    for line in text.split("\n"):
        line = REPLY.sub("", INSTRUCTION.sub(r"\1", " ".join(line.split())))
        if line and not LEFT_OUT.match(line):
            yield "END OF HISTORY" if END.fullmatch(line) else line


def session_in(text: str) -> Session:
    """The session that a file describes."""
    head = dict(HEAD.findall(text))
    exchanges = list(exchanges_in(text[text.index(PROMPT) :].split("\n")))
    return Session(head["image"], head.get("options", "").split(), exchanges)


def exchanges_in(lines: Iterable[str]) -> Iterator[Exchange]:
    """The exchanges that begin in the first of some lines. What stands before a prompt is none."""
    current: Exchange | None = None
    for line in lines:
        if line.startswith(PROMPT):
            if current:
                yield current
            current = Exchange(line.removeprefix(PROMPT))
        elif current and line:
            current.lines.append(line)
    if current:
        yield current


def words_for(program: Path, session: Session) -> list[str]:
    """The words by which GDB plays a session. Each command is printed before it is done."""
    image = str(EXAMPLES / session.image)
    words = [GDB, "-nx", "-batch"]
    for setting in QUIET:
        words += ["-ex", f"set {setting}"]
    options = " ".join(session.options)
    words += ["-ex", f"target remote | '{program}' gdb '{image}' {options}"]
    for exchange in session.exchanges:
        shown = exchange.command.replace("\\", "\\\\").replace('"', '\\"')
        words += ["-ex", f"echo \\n{PROMPT}{shown}\\n", "-ex", exchange.command]
    return [*words, image]


def played(program: Path, session: Session) -> list[Exchange]:
    """What GDB prints of a session, which is played in the image's folder."""
    done = subprocess.run(
        words_for(program, session),
        cwd=(EXAMPLES / session.image).parent,
        env={**os.environ, **ENVIRONMENT},
        stdin=subprocess.DEVNULL,
        stdout=subprocess.PIPE,
        stderr=subprocess.STDOUT,
        text=True,
        errors="replace",
        timeout=SECONDS,
        check=False,
    )
    return [
        Exchange(exchange.command, list(plain("\n".join(exchange.lines))))
        for exchange in exchanges_in(done.stdout.split("\n"))
    ]


def faults_of(program: Path, path: Path) -> Iterator[str]:
    """How the first command that is answered otherwise differs."""
    session = session_in(path.read_text())
    try:
        got = played(program, session)
    except subprocess.TimeoutExpired:
        yield f"{path.name}: no end after {SECONDS} seconds"
        return
    for number, wanted in enumerate(session.exchanges):
        lines = got[number].lines if number < len(got) else ["nothing"]
        if lines != wanted.lines:
            yield f"{path.name}: {PROMPT}{wanted.command}"
            yield from difflib.unified_diff(wanted.lines, lines, "wanted", "got", lineterm="")
            return


def main(words: list[str]) -> int:
    """Does what the words say, and gives the exit status."""
    if not words:
        sys.exit("gdb_test: the words are: PROGRAM [SESSION..]")
    if shutil.which(GDB) is None:
        return 0
    program = Path(words[0]).absolute()
    paths = [Path(word) for word in words[1:]] or sorted(SESSIONS.glob("*.session"))
    faults = [fault for path in paths for fault in faults_of(program, path)]
    for fault in faults:
        print(f"gdb_test: {fault}", file=sys.stderr)
    return 1 if faults else 0


if __name__ == "__main__":
    sys.exit(main(sys.argv[1:]))
