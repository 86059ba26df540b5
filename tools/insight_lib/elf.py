"""The functions of an image: the symbols of a 32-bit ELF file."""

import bisect
import struct
from collections.abc import Iterator, Sequence
from dataclasses import dataclass
from pathlib import Path
from typing import NamedTuple

from shared_lib.faults import InputFault

SYMBOL_TABLE = 2
EXECUTABLE = 4
NO_TYPE, FUNCTION = 0, 2
RESERVED = 0xFF00


class Head(NamedTuple):
    """The head of an ELF file of 32 bits."""

    identity: bytes
    kind: int
    machine: int
    version: int
    entry: int
    segments: int
    sections: int
    flags: int
    size: int
    segment_size: int
    segment_count: int
    section_size: int
    section_count: int
    section_of_names: int


class Section(NamedTuple):
    """An entry of the table of sections."""

    name: int
    kind: int
    flags: int
    address: int
    place: int
    size: int
    link: int
    information: int
    alignment: int
    entry_size: int


class Symbol(NamedTuple):
    """An entry of a table of symbols. The four low bits of `information` are its kind."""

    name: int
    address: int
    size: int
    information: int
    other: int
    section: int


HEAD = struct.Struct("<16s2H5I6H")
SECTION = struct.Struct("<10I")
SYMBOL = struct.Struct("<3I2BH")


@dataclass(frozen=True, order=True)
class Function:
    """A function: its address, its size in bytes (0 where the image doesn't tell it), its name."""

    address: int
    size: int
    name: str


class Functions:
    """The functions of an image, found by address."""

    def __init__(self, functions: list[Function]):
        self.all = sorted(functions)
        self._addresses = [function.address for function in self.all]

    def at(self, address: int) -> Function | None:
        """The function that an address is in. One without a size reaches to the next."""
        place = bisect.bisect_right(self._addresses, address) - 1
        if place < 0:
            return None
        function = self.all[place]
        is_in = function.size == 0 or address < function.address + function.size
        return function if is_in else None


def read_functions(path: Path) -> Functions:
    """The functions of an image; none where it has no symbols."""
    content = path.read_bytes()
    if content[:6] != b"\x7fELF\x01\x01":
        raise InputFault(f"{path} is no ELF file of 32 bits")
    try:
        return Functions(list(functions_of(content)))
    except (struct.error, IndexError, ValueError):
        raise InputFault(f"{path}: its symbols can't be read") from None


def functions_of(content: bytes) -> Iterator[Function]:
    """The named places of executable sections, one for an address: a function before a label."""
    sections = list(sections_of(content))
    found: dict[int, tuple[bool, int, str]] = {}
    for table in sections:
        if table.kind == SYMBOL_TABLE:
            names = sections[table.link].place
            for symbol in symbols_of(content, table):
                kind = symbol.information & 15
                if kind in (NO_TYPE, FUNCTION) and is_code(symbol, sections):
                    text = text_at(content, names + symbol.name)
                    candidate = (kind == FUNCTION, symbol.size, text)
                    if is_name(text) and candidate > found.get(symbol.address, (False, -1, "")):
                        found[symbol.address] = candidate
    for address, (_, size, text) in found.items():
        yield Function(address, size, text)


def sections_of(content: bytes) -> Iterator[Section]:
    """The sections of an ELF file."""
    head = Head(*HEAD.unpack_from(content))
    for number in range(head.section_count):
        yield Section(*SECTION.unpack_from(content, head.sections + head.section_size * number))


def symbols_of(content: bytes, table: Section) -> Iterator[Symbol]:
    """The symbols of a table."""
    for place in range(table.place, table.place + table.size, SYMBOL.size):
        yield Symbol(*SYMBOL.unpack_from(content, place))


def is_code(symbol: Symbol, sections: Sequence[Section]) -> bool:
    """Whether a symbol stands for a place in an executable section."""
    is_in_section = 0 < symbol.section < RESERVED
    return is_in_section and sections[symbol.section].flags & EXECUTABLE != 0


def text_at(content: bytes, place: int) -> str:
    """A text that ends with a zero byte."""
    return content[place : content.index(b"\0", place)].decode("utf-8", "replace")


def is_name(text: str) -> bool:
    """Tells names from the marks that assemblers and linkers leave."""
    return text != "" and not text.startswith((".L", "$"))
