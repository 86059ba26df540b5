"""The two programs: `fast`, and the reference."""

import os
import shutil
import subprocess
from pathlib import Path

from explore_lib.program import find_program
from shared_lib.faults import Fault as ProgramFault

from .faults import Fault

REPOSITORY = Path(__file__).resolve().parent.parent.parent
FOLDER = REPOSITORY / "reference"


def find_fast(path: Path) -> Path:
    """The program itself, as tools/explore finds it."""
    try:
        return find_program(path).absolute()
    except ProgramFault as fault:
        raise Fault(str(fault)) from None


def find_reference(path: Path | None) -> Path:
    """The reference: that at a path, or that of the repository, which is built if need be."""
    if path is not None:
        if not path.is_file() or not os.access(path, os.X_OK):
            raise Fault(f"{path} is no program")
        return path.absolute()
    if not can_build():
        raise Fault("the reference can't be built: it takes make and g++")
    jobs = f"--jobs={len(os.sched_getaffinity(0))}"
    words = ["make", "--silent", jobs, "--directory", str(FOLDER)]
    done = subprocess.run(words, capture_output=True, text=True, check=False)
    if done.returncode != 0:
        last = (done.stderr.strip() or "no message").splitlines()[-1]
        raise Fault(f"the reference couldn't be built: {last}")
    return FOLDER / "out" / "reference"


def can_build() -> bool:
    """Whether this computer has what builds the reference."""
    return all(shutil.which(word) for word in ("make", "g++"))
