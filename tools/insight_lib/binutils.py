"""What binutils tell of an image: its instructions, and the source lines they stand for."""

import re
import shutil
import subprocess
from collections.abc import Sequence
from dataclasses import dataclass
from pathlib import Path

from shared_lib.faults import Fault

PREFIXES = ["riscv64-unknown-elf-", "riscv64-linux-gnu-", "riscv32-unknown-elf-", "llvm-"]
INSTRUCTION = re.compile(r"^ *([0-9a-f]+):\t[0-9a-f ]+\t(.*)$")
ADVICE = "Debian: apt-get install binutils-riscv64-unknown-elf"


@dataclass(frozen=True)
class SourceLine:
    """A line of a source file, as the compiler named the file; number 0 where it isn't known."""

    file: str
    number: int


NO_LINE = SourceLine("", 0)


def find_tool(name: str) -> str:
    """A program of the binutils for RISC-V."""
    for prefix in PREFIXES:
        if path := shutil.which(prefix + name):
            return path
    raise Fault(f"there is no {name} for RISC-V ({ADVICE})")


def run_tool(words: Sequence[str], text: str = "") -> str:
    """What a program writes."""
    done = subprocess.run(words, input=text, capture_output=True, text=True, check=False)
    if done.returncode != 0:
        said = (done.stderr.strip().splitlines() or ["it failed"])[0]
        raise Fault(f"{words[0]}: {said}")
    return done.stdout


def instructions_of(image: Path) -> dict[int, str]:
    """The instructions of an image by address, as objdump writes them."""
    listing = run_tool([find_tool("objdump"), "-d", str(image)])
    found = {}
    for line in listing.splitlines():
        if match := INSTRUCTION.match(line):
            found[int(match[1], 16)] = " ".join(match[2].split())
    return found


def source_lines(image: Path, addresses: Sequence[int]) -> dict[int, SourceLine]:
    """The source line of each address; `NO_LINE` where the image has none."""
    asked = "".join(f"{address:#x}\n" for address in addresses)
    answers = run_tool([find_tool("addr2line"), "-e", str(image)], asked).splitlines()
    return {address: source_line(text) for address, text in zip(addresses, answers, strict=True)}


def source_line(answer: str) -> SourceLine:
    """An answer of addr2line, such as `./heap.c:24 (discriminator 1)`."""
    file, _, number = answer.split(" ")[0].rpartition(":")
    if not number.isdecimal() or file.startswith("??"):
        return NO_LINE
    return SourceLine(file, int(number))


def read_source(image: Path, file: str) -> list[str]:
    """The lines of a source file, named from the image's folder; none where it isn't there."""
    path = image.parent / file
    try:
        return path.read_text(errors="replace").splitlines()
    except OSError:
        return []
