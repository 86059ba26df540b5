"""What differs is kept in a folder, with a script that shows it again."""

import shlex
import shutil
from dataclasses import dataclass
from pathlib import Path

from .answers import Call
from .cases import Case

SCRIPT = """#!/bin/sh
# Shows again how two programs differ. All files were drawn by
#     {draw}
cd "$(dirname "$0")" || exit
"""
CALL = """
# {text}
{reference} {words} <{stdin} >wanted; echo "status $?" >>wanted
{other} {again} <{stdin} >got; echo "status $?" >>got
diff wanted got
"""


@dataclass(frozen=True)
class Difference:
    """A call that was answered in two ways, and how they differ."""

    call: Call
    text: str


def script_of(case: Case, differences: list[Difference], fast: Path, reference: Path) -> str:
    """The script that shows the differences of a case."""
    kinds = ",".join(dict.fromkeys(one.call.kind for one in differences))
    draw = f"tools/differential --seed {case.seed} --count 1 --kinds {kinds}"
    script = SCRIPT.format(draw=draw)
    for one in differences:
        script += CALL.format(
            text=one.text.replace("\n", " "),
            reference=shlex.quote(str(reference)),
            other=shlex.quote(str(reference if one.call.again else fast)),
            words=shlex.join(one.call.words),
            again=shlex.join(one.call.again or one.call.words),
            stdin=one.call.stdin or "/dev/null",
        )
    return script


def keep(
    case: Case, work: Path, differences: list[Difference], folder: Path, programs: tuple[Path, Path]
) -> Path:
    """Moves the files of a case into a folder of its own, with a script; gives the script."""
    place = folder / str(case.seed)
    shutil.rmtree(place, ignore_errors=True)
    folder.mkdir(parents=True, exist_ok=True)
    shutil.move(work, place)
    script = place / "again.sh"
    script.write_text(script_of(case, differences, *programs), errors="replace")
    script.chmod(0o755)
    return script
