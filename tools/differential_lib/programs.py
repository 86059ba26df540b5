"""Drawn programs: what the pipeline may get wrong, close together.

Registers: x5 to x12 hold data, x13 to x17 are for a piece itself, x20 is the address of data, x21
of the console, x22 of mtimecmp, x23 of the time, x24 of the finisher, x26 the end of the program,
x28 and x29 the trap handler's, x1 a return address.
"""

from collections.abc import Callable

from . import assembler as asm
from .draws import Draws

BASE = 0x80000000
DATA = BASE + 0x2000
CONSOLE, COMPARE, TIME, FINISHER = 0x10000000, 0x02004000, 0x0200BFF8, 0x00100000
DATA_REGISTERS = range(5, 13)
MSTATUS, MIE, MTVEC, MSCRATCH, MEPC, MCAUSE = 0x300, 0x304, 0x305, 0x340, 0x341, 0x342
CSRS = [
    *(MSTATUS, 0x301, MIE, MTVEC, 0x310, 0x320, MSCRATCH, MEPC, MCAUSE, 0x343, 0x344, 0x3A0, 0x3B0),
    *(0xB00, 0xB80, 0xB02, 0xB82, 0xC00, 0xC80, 0xC01, 0xC81, 0xC02, 0xC82),
    *(0xF11, 0xF12, 0xF13, 0xF14, 0xF15),
]
BRANCHES = [0, 1, 4, 5, 6, 7]
PASS = [asm.lui(6, 0x100), asm.lui(7, 5), asm.addi(7, 7, 0x555), asm.store(asm.WORD, 7, 6, 0)]


class ProgramDraw:
    """Draws one program."""

    def __init__(self, draws: Draws):
        self._draws = draws
        self._words: list[int] = []
        self._pieces: list[int] = []  # where each piece begins
        # Branches to pieces further on, which aren't known yet: place, piece, and the rest.
        self._forward: list[tuple[int, int, Callable[[int], int]]] = []
        self._weights = self._draw_weights()

    def draw(self) -> list[int]:
        """The words of the program."""
        self._add_handlers()
        end = self._add_start()
        self._add_body()
        self._words[end : end + 2] = asm.constant(26, BASE + 4 * len(self._words))
        self._add_end()
        return self._words

    # ---- the frame

    def _add_handlers(self) -> None:
        """A jump over the handlers: skip what trapped, and ask for the next timer interrupt."""
        draws = self._draws
        skip = [asm.csr(2, 28, MEPC, 0), asm.addi(28, 28, 4), asm.csr(1, 0, MEPC, 28), asm.MRET]
        timer = [
            asm.load(asm.WORD, 29, 22, 0),
            asm.addi(29, 29, draws.choice([7, 100, 300, 1000, 1500])),
            asm.store(asm.WORD, 29, 22, 0),
            asm.MRET,
        ]
        if draws.chance(0.3):
            timer.insert(0, asm.load(asm.WORD, 28, 23, 0))
        talk = [asm.store(asm.BYTE, 9, 21, 0)] if draws.chance(0.1) else []
        self._is_vectored = draws.chance(0.4)
        if self._is_vectored:
            handler = [*skip, *[asm.NOP] * (7 - len(skip)), *talk, *timer]
        else:
            is_timer = [asm.csr(2, 28, MCAUSE, 0), asm.branch(4, 28, 0, 4 + 4 * len(skip))]
            handler = [*talk, *self._rescue(), *is_timer, *skip, *timer]
        self._words += [asm.jal(0, 4 + 4 * len(handler)), *handler]

    def _rescue(self) -> list[int]:
        """Mostly, what can't be fetched leads to the end."""
        if self._draws.chance(0.2):
            return []
        is_other = [asm.csr(2, 28, MCAUSE, 0), asm.addi(29, 0, 1), asm.branch(1, 28, 29, 12)]
        return [*is_other, asm.csr(1, 0, MEPC, 26), asm.MRET]

    def _add_start(self) -> int:
        """Addresses, handlers, interrupts and data; where the address of the end is to stand."""
        draws = self._draws
        if draws.chance(0.95):
            handler = BASE + 4 | (1 if self._is_vectored else 0)
            self._words += [*asm.constant(28, handler), asm.csr(1, 0, MTVEC, 28)]
        end = len(self._words)
        self._words += asm.constant(26, 0)
        for number, address in enumerate((DATA, CONSOLE, COMPARE, TIME, FINISHER, BASE), 20):
            self._words += asm.constant(number, address)
        if draws.chance(0.5):
            self._words += [
                asm.addi(6, 0, draws.choice([5, 30, 60, 150, 400])),
                asm.store(asm.WORD, 6, 22, 0),
                asm.store(asm.WORD, 0, 22, 4),
                asm.addi(6, 0, 128),
                asm.csr(2, 0, MIE, 6),
            ]
            if draws.chance(0.9):
                self._words += [asm.csr(6, 0, MSTATUS, 8)]
        for number in DATA_REGISTERS:
            self._words += asm.constant(number, self._data_value())
        return end

    def _data_value(self) -> int:
        draws = self._draws
        return draws.choice(
            [
                *(draws.getrandbits(32), draws.getrandbits(8), draws.randrange(64) * 4),
                *(0, 1, 0xFFFFFFFF, 0x80000000, BASE + 4 * draws.randrange(200)),
            ]
        )

    def _add_body(self) -> None:
        draws = self._draws
        length = draws.randrange(20, 260)
        loops = draws.chance(0.5)
        if loops:
            self._words += [asm.addi(14, 0, draws.randrange(2, 12))]
        top = len(self._words)
        while len(self._words) < top + length:
            self._pieces += [len(self._words)]
            draws.weighted(self._weights)()
        for place, piece, word in self._forward:
            to = self._pieces[piece] if piece < len(self._pieces) else len(self._words)
            self._words[place] = word(4 * (to - place))
        if loops:
            self._words += [asm.addi(14, 14, -1)]
            offset = 4 * (top - len(self._words))
            if offset >= -4096:
                self._words += [asm.branch(4, 0, 14, offset)]

    def _add_end(self) -> None:
        """Mostly a pass, sometimes a failure, sometimes neither."""
        draws = self._draws
        if draws.chance(0.85):
            self._words += PASS
        elif draws.chance(0.5):
            code = draws.weighted([(1, 0), (1, 256), (6, draws.getrandbits(16))])
            finisher = [*asm.constant(6, FINISHER), *asm.constant(7, code << 16 | 0x3333)]
            self._words += [*finisher, asm.store(asm.WORD, 7, 6, 0)]

    # ---- pieces

    def _draw_weights(self) -> list[tuple[int, Callable[[], None]]]:
        """How often each piece comes, by what kind of program it is."""
        draws = self._draws
        memory = draws.choice([2, 2, 10])
        devices = 6 if draws.chance(0.6) else 0
        patches = 1 if draws.chance(0.3) else 0
        wild = 1 if draws.chance(0.3) else 0
        return [
            (30, self._add_register),
            (10, self._add_immediate),
            (7, self._add_product),
            (3 * memory, self._add_masked_transfer),
            (5 * memory, self._add_transfer),
            (8, self._add_branch),
            (3, self._add_loop),
            (3, self._add_call),
            (2, self._add_jump),
            (devices, self._add_device_access),
            (6, self._add_csr),
            (3, self._add_system),
            (patches, self._add_patch),
            (wild, self._add_wild),
            (1, lambda: self._add(asm.NOP)),
        ]

    def _add(self, *words: int) -> None:
        self._words += words

    def _data(self) -> int:
        """A register with data, or x0 now and then."""
        return 0 if self._draws.chance(0.02) else self._draws.choice(DATA_REGISTERS)

    def _add_register(self) -> None:
        funct3 = self._draws.randrange(8)
        funct7 = self._draws.choice([0, 0x20]) if funct3 in (0, 5) else 0
        self._add(asm.register(funct7, funct3, self._data(), self._data(), self._data()))

    def _add_immediate(self) -> None:
        funct3, number = self._draws.randrange(8), self._draws.getrandbits(12)
        if funct3 in (1, 5):
            number = number & 31 | (self._draws.choice([0, 0x400]) if funct3 == 5 else 0)
        self._add(asm.immediate(funct3, self._data(), self._data(), number))

    def _add_product(self) -> None:
        funct3 = self._draws.randrange(8)
        self._add(asm.register(1, funct3, self._data(), self._data(), self._data()))

    def _add_transfer(self) -> None:
        """A load or a store near the data, mostly aligned."""
        draws = self._draws
        is_store = draws.chance(0.45)
        width = draws.choice([0, 1, 2, 2]) if is_store else draws.choice([0, 1, 2, 2, 4, 5])
        offset = draws.randrange(64)
        if draws.chance(0.9):
            offset &= -(1 << (width & 3))
        if is_store:
            self._add(asm.store(width, self._data(), 20, offset))
        else:
            self._add(asm.load(width, self._data(), 20, offset))

    def _add_masked_transfer(self) -> None:
        """A load or a store at an address that depends on data."""
        mask = self._draws.choice([2044, 252, 60])
        self._add(asm.andi(13, self._data(), mask), asm.add(13, 13, 20))
        if self._draws.chance(0.5):
            self._add(asm.store(asm.WORD, self._data(), 13, 0))
        else:
            self._add(asm.load(asm.WORD, self._data(), 13, 0))

    def _add_branch(self) -> None:
        """To a piece further on; now and then over some words, or to no multiple of four."""
        draws = self._draws
        kind, first, second = draws.choice(BRANCHES), self._data(), self._data()
        if draws.chance(0.1):
            offset = 4 * draws.randrange(1, 6) + (2 if draws.chance(0.2) else 0)
            self._add(asm.branch(kind, first, second, offset))
            return
        piece = len(self._pieces) + draws.randrange(4)
        self._forward += [
            (len(self._words), piece, lambda to: asm.branch(kind, first, second, to))
        ]
        self._add(0)

    def _add_loop(self) -> None:
        rounds, data = self._draws.randrange(1, 9), self._data()
        self._add(
            asm.addi(15, 0, rounds),
            asm.add(data, self._data(), self._data()),
            asm.addi(15, 15, -1),
            asm.branch(4, 0, 15, -8),
        )

    def _add_call(self) -> None:
        exclusive_or = asm.register(0, 4, self._data(), self._data(), self._data())
        self._add(asm.jal(1, 8), asm.jal(0, 12), exclusive_or, asm.jalr(0, 1, 0))

    def _add_jump(self) -> None:
        offset = 4 if self._draws.chance(0.7) else 4 * self._draws.randrange(1, 5)
        self._add(asm.jal(self._draws.choice([0, 1]), offset))

    def _add_device_access(self) -> None:
        """Mostly the console; sometimes at an offset or with a width that isn't accepted."""
        draws, data = self._draws, self._data()
        width, offset = draws.choice([0, 4, 4, 1, 2]), draws.choice([0, 0, 5, 3, 1, 4])
        accesses = [
            (4, asm.store(asm.BYTE, data, 21, 0)),
            (2, asm.load(width, data, 21, offset)),
            (1, asm.store(asm.BYTE, draws.choice([0, data]), 21, draws.choice([3, 1, 4]))),
            (1, asm.load(asm.WORD, data, 23, draws.choice([0, 4]))),
            (1, asm.load(draws.choice([2, 2, 0]), data, 22, draws.choice([0, 4, 8]))),
            (1, asm.store(draws.choice([2, 1, 0]), data, 24, draws.choice([4, 8, 0]))),
        ]
        self._add(draws.weighted(accesses))

    def _add_csr(self) -> None:
        draws = self._draws
        number = draws.choice(CSRS) if draws.chance(0.9) else draws.getrandbits(12)
        source = draws.choice([0, 0, self._data(), draws.randrange(32)])
        # The handler's registers are mostly left, and interrupts mostly as they are.
        if number in (MTVEC, MEPC) and draws.chance(0.8):
            number = MSCRATCH
        if number in (MSTATUS, MIE) and draws.chance(0.5):
            source = 0
        kind = draws.choice([1, 2, 3, 5, 6, 7])
        self._add(asm.csr(kind, draws.choice([0, self._data()]), number, source))

    def _add_system(self) -> None:
        words = [asm.ECALL, asm.ECALL, asm.EBREAK, asm.WFI, 0x0000000F, asm.FENCE, asm.FENCE_I]
        self._add(self._draws.choice(words))

    def _add_patch(self) -> None:
        """A store of a word that is to be executed soon, with FENCE.I or without."""
        draws = self._draws
        words = [asm.addi(self._data(), self._data(), draws.getrandbits(11)), asm.ECALL, 0]
        place = BASE + 4 * (len(self._words) + 8 + draws.randrange(5))
        patch = [*asm.constant(16, draws.choice(words)), *asm.constant(17, place)]
        self._add(*patch, asm.store(asm.WORD, 16, 17, 0))
        if draws.chance(0.6):
            self._add(asm.FENCE_I)

    def _add_wild(self) -> None:
        """Any word, an access or a jump to anywhere, or MRET."""
        draws, offset = self._draws, self._draws.getrandbits(12)
        self._add(
            draws.choice(
                [
                    draws.getrandbits(32),
                    asm.load(asm.WORD, self._data(), self._data(), offset),
                    asm.store(asm.WORD, self._data(), self._data(), offset),
                    asm.jalr(draws.choice([0, 1]), self._data(), offset),
                    asm.MRET,
                ]
            )
        )


def draw_program(draws: Draws) -> list[int]:
    """The words of a program."""
    return ProgramDraw(draws).draw()
