"""Images as ELF files, and damaged ones."""

import struct
from dataclasses import dataclass

from .draws import Draws
from .programs import BASE, DATA

HEADER_SIZE, LOAD_SIZE = 52, 32
DATA_SIZE = 4096


@dataclass(frozen=True)
class Segment:
    """Bytes at an address, with room behind them that is 0."""

    address: int
    content: bytes
    size: int
    is_executable: bool


def image_of(segments: list[Segment], entry: int) -> bytes:
    """The ELF file of segments."""
    head = b"\x7fELF\x01\x01\x01" + bytes(9)
    count, begin = len(segments), HEADER_SIZE
    head += struct.pack("<HHIIIII", 2, 243, 1, entry, begin, 0, 0)
    head += struct.pack("<HHHHHH", HEADER_SIZE, LOAD_SIZE, count, 0, 0, 0)
    place = HEADER_SIZE + LOAD_SIZE * count
    for one in segments:
        flags = 5 if one.is_executable else 6
        numbers = (1, place, one.address, one.address, len(one.content), one.size, flags, 4)
        head += struct.pack("<8I", *numbers)
        place += len(one.content)
    return head + b"".join(one.content for one in segments)


def draw_image(draws: Draws, words: list[int]) -> bytes:
    """The image of a program, with data; now and then its text is in pieces."""
    text = struct.pack(f"<{len(words)}I", *words)
    cuts = [0, len(text)]
    if draws.chance(0.15):
        cuts = sorted([*cuts, *draws.sample(range(1, len(text)), draws.randrange(1, 4))])
    segments = [
        Segment(BASE + begin, text[begin:end], end - begin, len(cuts) == 2 or draws.chance(0.93))
        for begin, end in zip(cuts, cuts[1:])
    ]
    draws.shuffle(segments)
    data = draws.randbytes(64)
    segments += [Segment(DATA, data, DATA_SIZE, draws.chance(0.1))]
    entry = BASE + (draws.choice([1, 2, 0x2000, 0x5000]) if draws.chance(0.02) else 0)
    return image_of(segments, entry)


# Where fields of the header and of two load headers stand.
FIELDS = [4, 5, 16, 18, 24, 28, 42, 44] + [
    HEADER_SIZE + LOAD_SIZE * header + field
    for header in (0, 1)
    for field in (0, 4, 8, 12, 16, 20, 24)
]
VALUES = [
    *(0, 1, 2, 3, 31, 32, 33, 64, 65, 243, 0xFFFF, 0xFFFFFFFF),
    *(BASE, BASE + 1, BASE - 1, 0x80FFFFFF, 0x81000000),
]


def damage_image(draws: Draws, image: bytes) -> bytes:
    """An image that is cut off, or with other fields or bytes; it may still be one."""
    damaged = bytearray(image)
    for _ in range(draws.randrange(1, 3)):
        kind = draws.random()
        if kind < 0.2:
            del damaged[draws.randrange(len(damaged) + 1) :]
        elif kind < 0.6 and len(damaged) > HEADER_SIZE + 2 * LOAD_SIZE:
            field = draws.choice(FIELDS)
            width = 1 if field < 16 else 2 if field in (16, 18, 42, 44) else 4
            values = [*VALUES, len(damaged), len(damaged) - 1, draws.getrandbits(32)]
            value = draws.choice(values) & (1 << 8 * width) - 1
            damaged[field : field + width] = value.to_bytes(width, "little")
        elif damaged:
            place = draws.randrange(min(len(damaged), HEADER_SIZE + 3 * LOAD_SIZE))
            damaged[place] = draws.getrandbits(8)
    return bytes(damaged)
