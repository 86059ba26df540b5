"""Words of instructions (RISC-V unprivileged manual, section 2.2)."""

ECALL = 0x00000073
EBREAK = 0x00100073
WFI = 0x10500073
MRET = 0x30200073
FENCE_I = 0x0000100F
FENCE = 0x0FF0000F
NOP = 0x00000013

BYTE, HALF, WORD, BYTE_UNSIGNED, HALF_UNSIGNED = 0, 1, 2, 4, 5


def register(funct7: int, funct3: int, rd: int, rs1: int, rs2: int) -> int:
    """An instruction on two registers."""
    return funct7 << 25 | rs2 << 20 | rs1 << 15 | funct3 << 12 | rd << 7 | 0x33


def i_type(opcode: int, funct3: int, rd: int, rs1: int, immediate: int) -> int:
    """An instruction with an immediate of twelve bits."""
    return (immediate & 0xFFF) << 20 | rs1 << 15 | funct3 << 12 | rd << 7 | opcode


def immediate(funct3: int, rd: int, rs1: int, number: int) -> int:
    """An instruction on a register and a number."""
    return i_type(0x13, funct3, rd, rs1, number)


def add(rd: int, rs1: int, rs2: int) -> int:
    """ADD"""
    return register(0, 0, rd, rs1, rs2)


def addi(rd: int, rs1: int, number: int) -> int:
    """ADDI"""
    return immediate(0, rd, rs1, number)


def andi(rd: int, rs1: int, number: int) -> int:
    """ANDI"""
    return immediate(7, rd, rs1, number)


def lui(rd: int, number: int) -> int:
    """LUI"""
    return (number & 0xFFFFF) << 12 | rd << 7 | 0x37


def load(width: int, rd: int, rs1: int, offset: int) -> int:
    """A load, whose width is its funct3."""
    return i_type(0x03, width, rd, rs1, offset)


def store(width: int, rs2: int, rs1: int, offset: int) -> int:
    """A store."""
    high, low = offset >> 5 & 127, offset & 31
    return high << 25 | rs2 << 20 | rs1 << 15 | width << 12 | low << 7 | 0x23


def branch(funct3: int, rs1: int, rs2: int, offset: int) -> int:
    """A branch by an even number of bytes."""
    high = (offset >> 12 & 1) << 6 | offset >> 5 & 63
    low = (offset >> 1 & 15) << 1 | offset >> 11 & 1
    return high << 25 | rs2 << 20 | rs1 << 15 | funct3 << 12 | low << 7 | 0x63


def jal(rd: int, offset: int) -> int:
    """JAL"""
    bits = (offset >> 20 & 1) << 19 | (offset >> 1 & 1023) << 9 | (offset >> 11 & 1) << 8
    return (bits | offset >> 12 & 255) << 12 | rd << 7 | 0x6F


def jalr(rd: int, rs1: int, offset: int) -> int:
    """JALR"""
    return i_type(0x67, 0, rd, rs1, offset)


def csr(funct3: int, rd: int, number: int, rs1: int) -> int:
    """A CSR instruction, whose rs1 is the immediate where funct3 is at least 5."""
    return i_type(0x73, funct3, rd, rs1, number)


def constant(rd: int, number: int) -> list[int]:
    """LUI and ADDI for a number of 32 bits."""
    number &= 0xFFFFFFFF
    return [lui(rd, number + 0x800 >> 12), addi(rd, rd, number)]
