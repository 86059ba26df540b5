"""The simulator that is driven."""

import os
import subprocess
from pathlib import Path

from shared_lib.faults import Fault

NOT_BUILT = 125


def find_program(path: Path, *commands: str) -> Path:
    """The program itself, which can be copied: of a repository's `./fast`, what it builds.

    It has to know `sweep`, and the commands that are named.
    """
    if not path.is_file() or not os.access(path, os.X_OK):
        raise Fault(f"{path} is no program")
    program = path
    if (path.resolve().parent / "crates.txt").exists():
        if call(path, []).returncode == NOT_BUILT:
            raise Fault(f"{path} couldn't be built")
        program = path.resolve().parent / "out" / "fast"
    for command in ("sweep", *commands):
        said = call(program, [command, "/dev/null/image", "/dev/null/machine"]).stdout.strip()
        if not said.startswith(b"fast: ") or said.split()[1:2] == [b"usage:"]:
            raise Fault(f"{path} doesn't run `fast {command}`")
    return program


def call(program: Path, words: list[str]) -> subprocess.CompletedProcess[bytes]:
    """Calls the program; what it says on standard error is shown."""
    try:
        return subprocess.run(
            [program.absolute(), *words],
            stdin=subprocess.DEVNULL,
            stdout=subprocess.PIPE,
            check=False,
        )
    except OSError as fault:
        raise Fault(f"{program}: {fault.strerror}") from None
