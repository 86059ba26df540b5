"""What a program answers, and how two answers differ."""

import subprocess
from dataclasses import dataclass
from itertools import zip_longest
from pathlib import Path

from .faults import Fault

MOST_LINES = 3
MOST_TEXT = 100


@dataclass(frozen=True)
class Call:
    """Words, and the file that stands at standard input, if one does.

    Words that the reference is to answer as it answers the others are there where it is compared
    with itself.
    """

    kind: str
    words: tuple[str, ...]
    stdin: str | None = None
    again: tuple[str, ...] = ()


@dataclass(frozen=True)
class Answer:
    """Exit status and standard output; no status where there was no end in time."""

    status: int | None
    output: bytes
    said: str = ""

    def differs(self, other: "Answer") -> bool:
        """Whether another program answered otherwise."""
        return (self.status, self.output) != (other.status, other.output)


def ask(
    program: Path, words: tuple[str, ...], stdin: str | None, folder: Path, seconds: float
) -> Answer:
    """Calls a program in a folder."""
    try:
        with open(folder / stdin if stdin else "/dev/null", "rb") as given:
            done = subprocess.run(
                [program, *words],
                cwd=folder,
                stdin=given,
                capture_output=True,
                timeout=seconds,
                check=False,
            )
    except subprocess.TimeoutExpired:
        return Answer(None, b"")
    except OSError as fault:
        raise Fault(f"{program}: {fault.strerror}") from None
    return Answer(done.returncode, done.stdout, done.stderr.decode(errors="replace").strip())


def status_text(answer: Answer) -> str:
    """A status, with what was said on standard error."""
    if answer.status is None:
        return "no end in time"
    return f"status {answer.status}" + (f" ({answer.said[:MOST_TEXT]})" if answer.said else "")


def difference(wanted: Answer, got: Answer) -> str:
    """How two answers differ, in one line."""
    if wanted.status != got.status:
        return f"{status_text(got)} for {status_text(wanted)}"
    pairs = zip_longest(lines_of(wanted), lines_of(got), fillvalue="nothing")
    texts = [f"[{one}] for [{other}]" for other, one in pairs if one != other]
    more = f"; and {len(texts) - MOST_LINES} lines more" if len(texts) > MOST_LINES else ""
    return "; ".join(texts[:MOST_LINES]) + more


def lines_of(answer: Answer) -> list[str]:
    """The lines of an output, cut where they are long."""
    return [line[:MOST_TEXT] for line in answer.output.decode("latin-1").split("\n")]
