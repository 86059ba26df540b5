"""The command lines of the README and of the examples, run with a program.

A line of a block is run if it begins with `./fast` or with a script in examples/, or pipes
something into `./fast`; so is a span that begins with `./fast`, unless it has words in capitals.
What the document says of a run:

- its lines: of a transcript, whose commands begin with `$`, all lines up to the next command; else
  those after an empty line in the same block, or a block after a paragraph that begins `It prints`;
- lines of its report, in the paragraph after its block, as `status: pass`;
- its exit status, by the line of the status: 0 if there is none, and 5 of the commands that show
  something else than a report. If the program writes into `head`, which may end first, it may also
  be 15.
"""

import re
import shlex
import subprocess
import tempfile
from collections.abc import Iterator
from dataclasses import dataclass, field
from pathlib import Path

from .markdown import Block, Document, Found
from .spans import PLACEHOLDER

STATUSES = {"pass": 0, "fail": 1, "limit": 2, "output": 3, "running": 4}
SHOWN = ("sweep", "back", "trace", "profile", "count", "gdb")
SHOWN_STATUS = 5
CUT_OFF_STATUS = 15
CUT_OFF = re.compile(r"\./fast [^|]*\| *head(?: |$)")
LINE_OF_REPORT = re.compile(r"`([a-z0-9]+: [^`]*)`")
STARTED = re.compile(r"(?:\$ )?(?:(?:[^|]*[^|\s] +\| +)?\./fast|examples/\S+\.sh)(?: |$)")
MADE_BY_SCRIPT = {"--prove", "--help", "--version", "help"}
SECONDS = 300

SCRIPT = """#!/bin/sh
{program} "$@"
status=$?
echo $status >>{folder}/statuses
exit $status
"""


@dataclass
class Command:
    """A command line with what the document says of it."""

    text: str
    line: int
    is_transcript: bool = False
    printed: list[str] = field(default_factory=list)
    reported: list[str] = field(default_factory=list)

    @property
    def words(self) -> list[str]:
        """The words after `./fast`."""
        try:
            words = shlex.split(self.text)
        except ValueError:
            return []
        return words[words.index("./fast") + 1 :] if "./fast" in words else []

    @property
    def status(self) -> int:
        """The exit status that the document lets expect."""
        if self.words[:1] and self.words[0] in SHOWN:
            return SHOWN_STATUS
        for line in (*self.printed, *self.reported):
            if found := re.match(r"status: (\w+)", line):
                return STATUSES[found[1]]
        return 0

    @property
    def statuses(self) -> set[int]:
        """The exit statuses with which the program may end."""
        return {self.status, CUT_OFF_STATUS} if CUT_OFF.search(self.text) else {self.status}


def faults_of(document: Document, repository: Path, program: Path) -> Iterator[tuple[Found, str]]:
    """Command lines of a document that end otherwise, or print something else."""
    for command in commands_of(document):
        for fault in faults_of_run(command, repository, program):
            yield Found(command.text, command.line), fault


def commands_of(document: Document) -> Iterator[Command]:
    """The command lines of a document that can be run."""
    commands: list[Command] = []
    for block in document.blocks:
        inside = commands_in(block)
        if commands and not inside and block.before.startswith("It prints"):
            commands[-1].printed.extend(line.text for line in block.lines if line.text)
        commands.extend(inside)
    yield from commands
    for span in document.spans:
        command = Command(span.text, span.line)
        if span.text.startswith("./fast ") and can_run(command):
            yield command


def can_run(command: Command) -> bool:
    """Whether a command line has a command of the program and no words that stand for others."""
    words = command.words
    has_command = bool(words) and words[0] not in MADE_BY_SCRIPT
    return has_command and len(words) > 1 and not any(map(PLACEHOLDER.fullmatch, words))


def commands_in(block: Block) -> list[Command]:
    """The command lines of a block."""
    commands: list[Command] = []
    goes_on = is_answer = False
    for line in block.lines:
        if goes_on:
            commands[-1].text += "\n" + line.text
        elif STARTED.match(line.text):
            goes_on, is_answer = True, line.text.startswith("$ ")
            commands.append(Command(line.text.removeprefix("$ "), line.line, is_answer))
        elif not line.text:
            is_answer = bool(commands)
        elif is_answer:
            commands[-1].printed.append(line.text)
        goes_on = goes_on and line.text.endswith(("\\", "|", "&&"))
    if commands and not commands[-1].is_transcript and commands[-1].status != SHOWN_STATUS:
        commands[-1].reported.extend(LINE_OF_REPORT.findall(block.after))
    return commands


def faults_of_run(command: Command, repository: Path, program: Path) -> Iterator[str]:
    """What is otherwise when a command line is run."""
    with tempfile.TemporaryDirectory() as folder:
        script = Path(folder, "fast")
        script.write_text(SCRIPT.format(program=shlex.quote(str(program)), folder=folder))
        script.chmod(0o755)
        text = command.text.replace("/tmp/", f"{folder}/")
        text = re.sub(r"(?<!\S)\./fast(?!\S)", str(script), text)
        try:
            run = subprocess.run(
                ["bash", "-c", text], cwd=repository, capture_output=True, timeout=SECONDS
            )
        except subprocess.TimeoutExpired:
            yield f"takes more than {SECONDS} seconds"
            return
        statuses = Path(folder, "statuses")
        ended = {int(word) for word in statuses.read_text().split()} if statuses.exists() else set()
    if not ended <= command.statuses:
        yield f"ends with status {sorted(ended)}, and not {command.status}"
    elif not ended and run.returncode != 0:
        yield f"ends with status {run.returncode}, and not 0"
    printed = run.stdout.decode(errors="replace").split("\n")
    if command.is_transcript and [line for line in printed if line] != command.printed:
        yield "prints something else"
    for line in (*command.printed, *command.reported):
        if line not in printed:
            yield f"prints no line {line!r}"
