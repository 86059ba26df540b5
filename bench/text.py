#!/usr/bin/env python3
"""How the size of a program's text slows `func` down: bench/text.py [--rounds N] PROGRAM..

Each PROGRAM runs loops of 1, 16, 64 and 400 KiB of text, whose instructions all compute, for 20,000,000 steps. Every
instruction of such a loop has been left alone for as long as can be, so no program of that size is slower. Printed are
the lowest processor time of some rounds, the steps in a second, and how fast that is beside 16 KiB. With `--fence` each
loop ends with a FENCE.I. It is no part of the gate.
"""
import argparse
import resource
import struct
import subprocess
import tempfile
from collections.abc import Iterable
from pathlib import Path

BASE = 0x8000_0000
STEPS = 20_000_000
SIZES = (1, 16, 64, 400)
BESIDE = 16
FENCE_I = 0x0000_100F
# ADDI x5, x5, 1; XOR x6, x6, x5; ADD x7, x7, x6
COMPUTING = (0x0012_8293, 0x0053_4333, 0x0063_83B3)


def jump(offset: int) -> int:
    """JAL x0 by an offset."""
    sign, high = (offset >> 20) & 1, (offset >> 12) & 0xFF
    middle, low = (offset >> 11) & 1, (offset >> 1) & 0x3FF
    return sign << 31 | low << 21 | middle << 20 | high << 12 | 0x6F


def loop(kibibytes: int, fence: bool) -> list[int]:
    """The words of a loop that has so much text."""
    count = kibibytes * 256 - 1
    words = [COMPUTING[place % len(COMPUTING)] for place in range(count)]
    if fence:
        words[-1] = FENCE_I
    return [*words, jump(-4 * count)]


def image(words: Iterable[int]) -> bytes:
    """An ELF file of words that stand from the start of RAM on."""
    text = b"".join(struct.pack("<I", word) for word in words)
    head = b"\x7fELF\x01\x01\x01" + bytes(9)
    head += struct.pack("<HHIIIIIHHHHHH", 2, 243, 1, BASE, 52, 0, 0, 52, 32, 1, 0, 0, 0)
    return head + struct.pack("<IIIIIIII", 1, 84, BASE, BASE, len(text), len(text), 5, 4) + text


def seconds(program: str, path: Path) -> float:
    """The processor time of one run."""
    before = resource.getrusage(resource.RUSAGE_CHILDREN)
    words = [program, "func", str(path), "--cycles", str(STEPS)]
    subprocess.run(words, stdout=subprocess.DEVNULL, check=False)
    after = resource.getrusage(resource.RUSAGE_CHILDREN)
    return after.ru_utime - before.ru_utime + after.ru_stime - before.ru_stime


def main() -> None:
    """Measures each program on each size."""
    parser = argparse.ArgumentParser(usage="text.py [--rounds N] [--fence] PROGRAM..")
    parser.add_argument("--rounds", type=int, default=9)
    parser.add_argument("--fence", action="store_true")
    parser.add_argument("programs", nargs="+")
    given = parser.parse_args()
    with tempfile.TemporaryDirectory() as folder:
        for program in given.programs:
            lowest = {}
            for size in SIZES:
                path = Path(folder) / f"text{size}"
                path.write_bytes(image(loop(size, given.fence)))
                lowest[size] = min(seconds(program, path) for _ in range(given.rounds))
            for size, time in lowest.items():
                speed = STEPS / time / 1e6
                print(f"{program}: {size} KiB: {time:.3f} s, {speed:.0f} million steps a second, "
                      f"{lowest[BESIDE] / time:.2f} of {BESIDE} KiB")


if __name__ == "__main__":
    main()
