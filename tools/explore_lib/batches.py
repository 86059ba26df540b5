"""Batches of machines, and the folder in which they are run.

The folder holds all that a batch needs: the program, the image, the console's input, a script, and
for each batch its machine files in one archive. So batches can be handed to another computer, and a
change of the image or the program while the exploration runs changes nothing.
"""

import io
import shutil
import tarfile
import tempfile
from collections.abc import Sequence
from dataclasses import dataclass
from pathlib import Path

from shared_lib.causes import NAMES

from .answers import Refusal, Row, read_answer
from .journal import Work, identity
from .machine_file import machine_text
from .space import Extras, Machine, Space

MOST_IN_BATCH = 64
PREFIX = "explore-"

SCRIPT = """\
#!/bin/sh
# Runs one batch, whose name begins with its image's number: writes the lines of `sweep`, and after
# them its status. Ends with 1 if the answer isn't whole, so that the batch is tried again.
cd "$(dirname "$0")" && here=$(pwd) && place=$(mktemp -d "$here/$1.XXXXXX") || exit 1
trap 'rm -rf "$place"' EXIT
tar -xf "$1.tar" -C "$place" && cd "$place" || exit 1
image=$here/image${{1%%-*}}.elf
"$here/fast" sweep "$image" *.toml{options} </dev/null
status=$?
{reports}echo "status $status"
case $status in
    5 | 1[0-9] | 2[0-9]) exit 0 ;;
esac
exit 1
"""

REPORTS = """\
[ "$status" = 5 ] && for machine in *.toml; do
    "$here/fast" {command} "$image" "$machine"{options} </dev/null >report
    case $? in
        [0-3]) ;;
        1[12]) continue ;;
        *) exit 1 ;;
    esac
{lines}done
"""

SQUASHED = """\
    count=$(LC_ALL=C sed -n 's/^squashed: \\([0-9]*\\)$/\\1/p' report | tail -n 1)
    echo "squashed $machine $count"
"""

STACKS = f"""\
    causes=$(LC_ALL=C sed -n 's/^head\\.\\([a-z]*: [0-9]*\\)$/\\1/p' report | tail -n {len(NAMES)})
    echo "stack" "$machine" $causes
"""


@dataclass(frozen=True)
class Batch:
    """Machines that one call of `sweep` runs; each by the name of its file and its identity."""

    name: str
    image: str
    work: Work
    machines: dict[str, str]

    @property
    def title(self) -> str:
        """The batch as a user knows it."""
        numbers = [int(Path(file).stem) for file in self.machines]
        return f"{self.image} on machines {numbers[0]} to {numbers[-1]}"

    def read(self, text: str) -> dict[str, Row] | Refusal | None:
        """The rows of an answer by their machines; None where the answer isn't whole."""
        answer = read_answer(text, list(self.machines))
        if isinstance(answer, list):
            return dict(zip(self.machines.values(), answer, strict=True))
        return answer


class WorkFolder:
    """A new folder with all that the batches need."""

    def __init__(self, folder: Path, program: Path, space: Space, extras: Extras):
        self.path = Path(tempfile.mkdtemp(prefix=PREFIX, dir=folder)).absolute()
        self._space = space
        shutil.copy(program, self.path / "fast")
        self.images = []
        for number, image in enumerate(space.images, 1):
            self.images += [self.path / f"image{number}.elf"]
            shutil.copyfile(image.path, self.images[-1])
        words = []
        if space.options.cycles is not None:
            words += [f" --cycles {space.options.cycles}"]
        if space.options.output is not None:
            words += [f" --output {space.options.output}"]
        if space.options.input is not None:
            shutil.copyfile(space.options.input, self.path / "input")
            words += [' --input "$here/input"']
        options = "".join(words)
        script = self.path / "batch.sh"
        script.write_text(SCRIPT.format(options=options, reports=reports_of(extras, options)))
        script.chmod(0o755)
        self.common = sorted(path.name for path in self.path.iterdir())

    def lay(self, work: Work, number: int, machines: Sequence[Machine], size: int) -> list[Batch]:
        """Writes the machine files for the image of a number, in batches of a size."""
        image = self._space.images[number - 1].name
        batches = []
        for first in range(0, len(machines), size):
            name = f"{number}-{first // size + 1:06}"
            files = {}
            with tarfile.open(self.path / f"{name}.tar", "w") as archive:
                for machine in machines[first : first + size]:
                    values = self._space.values(machine)
                    file = f"{machine.number:06}.toml"
                    add_file(archive, file, machine_text(values).encode())
                    files[file] = identity(values)
            batches.append(Batch(name, image, work, files))
        return batches

    def remove(self) -> None:
        """Takes the folder away."""
        shutil.rmtree(self.path, ignore_errors=True)


def reports_of(extras: Extras, options: str) -> str:
    """The part of the script that takes from reports what `sweep` doesn't tell."""
    lines = (SQUASHED if extras.squashed else "") + (STACKS if extras.stacks else "")
    command = "stack" if extras.stacks else "run"
    return REPORTS.format(command=command, options=options, lines=lines) if lines else ""


def add_file(archive: tarfile.TarFile, name: str, content: bytes) -> None:
    """Adds a file to an archive."""
    about = tarfile.TarInfo(name)
    about.size = len(content)
    archive.addfile(about, io.BytesIO(content))
