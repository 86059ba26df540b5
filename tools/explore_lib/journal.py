"""The journal of finished rows, and the lock of the folder that it is in.

A row is found by all values of its machine, within the rows of one `Work`: the image, the
console's input and the options. Each finished batch is a file of its own, which is put into place
whole. Rows of another work stay where they are, and count again when that work comes back.
"""

import fcntl
import hashlib
import json
import os
from collections import Counter
from collections.abc import Collection, Mapping
from dataclasses import asdict, dataclass
from pathlib import Path

from shared_lib.faults import Fault
from shared_lib.files import sum_of, write_whole

from .answers import Row
from .keys import Value
from .machine_file import differing
from .space import Extras, Image, Space

FORMAT = "fast explore 1"
USUAL_CYCLES = 10_000_000
USUAL_OUTPUT = 16_777_216
NAMES = {
    "image": "the image",
    "input": "the console's input",
    "cycles": "the bound of cycles",
    "output": "the room for output",
    "squashed": "--squashed",
    "stacks": "--stacks",
}


@dataclass(frozen=True)
class Work:
    """What is run on each machine."""

    image: str
    input: str
    cycles: int
    output: int
    squashed: bool
    stacks: bool = False

    @property
    def name(self) -> str:
        """A short name that another image, input or option changes."""
        content = asdict(self)
        if not self.stacks:
            del content["stacks"]  # as in journals that were begun before there were stacks
        return hashlib.sha256(json.dumps(content).encode()).hexdigest()[:16]

    def changed_from(self, other: Mapping[str, object]) -> list[str]:
        """What is another than in other work."""
        return [
            NAMES[name] for name, value in asdict(self).items() if other.get(name, False) != value
        ]


def work_of(space: Space, image: Image, extras: Extras) -> Work:
    """The work of an image of a space."""
    options = space.options
    return Work(
        image=sum_of(image.path),
        input=sum_of(options.input) if options.input else "",
        cycles=USUAL_CYCLES if options.cycles is None else options.cycles,
        output=USUAL_OUTPUT if options.output is None else options.output,
        squashed=extras.squashed,
        stacks=extras.stacks,
    )


def identity(values: Mapping[str, Value]) -> str:
    """A machine by all its values: those that differ from the plain machine's, as JSON."""
    return json.dumps(differing(values))


class Journal:
    """The finished rows of one work."""

    def __init__(self, folder: Path, work: Work):
        self._work = work
        self._own = folder / "journal" / work.name
        self.rows: dict[str, Row] = {}
        self._count = 0
        for path in sorted(self._own.glob("*.json")):
            self.rows |= read_batch(path)
            self._count = int(path.stem)

    def add(self, rows: Mapping[str, Row]) -> None:
        """Keeps the rows of a batch."""
        if not self._own.exists():
            self._own.mkdir(parents=True)
            write_whole(self._own / "work", json.dumps(asdict(self._work)) + "\n")
        content = [{"machine": json.loads(name), "row": asdict(row)} for name, row in rows.items()]
        self._count += 1
        lines = ",\n".join(map(json.dumps, content))
        text = f'{{"format": "{FORMAT}", "rows": [\n{lines}\n]}}\n'
        write_whole(self._own / f"{self._count:06}.json", text)
        self.rows |= rows


def open_journals(folder: Path, space: Space, extras: Extras) -> dict[Work, Journal]:
    """The journals of a space's images, in their order."""
    works = [work_of(space, image, extras) for image in space.images]
    return {work: Journal(folder, work) for work in works}


def other_rows(folder: Path, works: Collection[Work]) -> str:
    """Which rows of other work are in the journal: a line, or nothing."""
    own = {work.name for work in works}
    counts: Counter[str] = Counter()
    for path in sorted((folder / "journal").glob("*/work")):
        if path.parent.name not in own:
            other = json.loads(path.read_text())
            changed = min((work.changed_from(other) for work in works), key=len)
            rows = sum(len(read_batch(batch)) for batch in path.parent.glob("*.json"))
            counts[" and ".join(changed)] += rows
    texts = [
        f"{count} rows of before aren't used, since {changed} changed"
        for changed, count in counts.items()
        if count
    ]
    return "; ".join(texts)


def read_batch(path: Path) -> dict[str, Row]:
    """The rows of a finished batch."""
    try:
        content = json.loads(path.read_text())
        if content["format"] != FORMAT:
            raise ValueError
        return {json.dumps(row["machine"]): Row(**row["row"]) for row in content["rows"]}
    except (OSError, ValueError, KeyError, TypeError):
        raise Fault(f"{path} is no journal of explore; move it away to run its rows anew") from None


class Lock:
    """Holds a folder for one exploration at a time, until the process ends."""

    def __init__(self, folder: Path):
        try:
            folder.mkdir(parents=True, exist_ok=True)
            self._file = os.open(folder / "lock", os.O_RDWR | os.O_CREAT, 0o644)
        except OSError as fault:
            raise Fault(f"{folder}: {fault.strerror}") from None
        try:
            fcntl.flock(self._file, fcntl.LOCK_EX | fcntl.LOCK_NB)
        except OSError:
            raise Fault(f"another exploration is at work in {folder}") from None

    def __enter__(self) -> None:
        """Holds the folder already."""

    def __exit__(self, *_: object) -> None:
        """Lets the folder go."""
        os.close(self._file)
