// Words of instructions, by their formats (RISC-V unprivileged manual, section 2.2).
#pragma once

#include <cstdint>

namespace assembly {

inline uint32_t r_type(uint32_t funct7, uint32_t rs2, uint32_t rs1, uint32_t funct3, uint32_t rd,
                       uint32_t opcode) {
    return funct7 << 25 | rs2 << 20 | rs1 << 15 | funct3 << 12 | rd << 7 | opcode;
}

inline uint32_t i_type(int32_t immediate, uint32_t rs1, uint32_t funct3, uint32_t rd,
                       uint32_t opcode) {
    return (uint32_t)immediate << 20 | rs1 << 15 | funct3 << 12 | rd << 7 | opcode;
}

// Register instructions, among them those of M; and those with an immediate.
inline uint32_t compute(uint32_t funct7, uint32_t funct3, uint32_t rd, uint32_t rs1, uint32_t rs2) {
    return r_type(funct7, rs2, rs1, funct3, rd, 0x33);
}
inline uint32_t add(uint32_t rd, uint32_t rs1, uint32_t rs2) {
    return compute(0, 0, rd, rs1, rs2);
}
inline uint32_t exclusive_or(uint32_t rd, uint32_t rs1, uint32_t rs2) {
    return compute(0, 4, rd, rs1, rs2);
}
inline uint32_t addi(uint32_t rd, uint32_t rs1, int32_t immediate) {
    return i_type(immediate, rs1, 0, rd, 0x13);
}
inline uint32_t andi(uint32_t rd, uint32_t rs1, int32_t immediate) {
    return i_type(immediate, rs1, 7, rd, 0x13);
}
inline uint32_t lui(uint32_t rd, uint32_t immediate) {
    return immediate << 12 | rd << 7 | 0x37;
}
inline uint32_t auipc(uint32_t rd, uint32_t immediate) {
    return immediate << 12 | rd << 7 | 0x17;
}

inline uint32_t lw(uint32_t rd, int32_t immediate, uint32_t rs1) {
    return i_type(immediate, rs1, 2, rd, 0x03);
}
inline uint32_t sw(uint32_t rs2, int32_t immediate, uint32_t rs1) {
    uint32_t bits = (uint32_t)immediate;
    return r_type(bits >> 5 & 127, rs2, rs1, 2, bits & 31, 0x23);
}

inline uint32_t jal(uint32_t rd, int32_t offset) {
    uint32_t bits = (uint32_t)offset;
    return (bits >> 20 & 1) << 31 | (bits >> 1 & 1023) << 21 | (bits >> 11 & 1) << 20 |
           (bits >> 12 & 255) << 12 | rd << 7 | 0x6F;
}
inline uint32_t jalr(uint32_t rd, int32_t immediate, uint32_t rs1) {
    return i_type(immediate, rs1, 0, rd, 0x67);
}
inline uint32_t branch(uint32_t funct3, uint32_t rs1, uint32_t rs2, int32_t offset) {
    uint32_t bits = (uint32_t)offset;
    return (bits >> 12 & 1) << 31 | (bits >> 5 & 63) << 25 | rs2 << 20 | rs1 << 15 | funct3 << 12 |
           (bits >> 1 & 15) << 8 | (bits >> 11 & 1) << 7 | 0x63;
}
inline uint32_t bne(uint32_t rs1, uint32_t rs2, int32_t offset) {
    return branch(1, rs1, rs2, offset);
}
inline uint32_t blt(uint32_t rs1, uint32_t rs2, int32_t offset) {
    return branch(4, rs1, rs2, offset);
}

inline uint32_t csrrw(uint32_t rd, uint32_t csr, uint32_t rs1) {
    return i_type((int32_t)csr, rs1, 1, rd, 0x73);
}
inline uint32_t csrrs(uint32_t rd, uint32_t csr, uint32_t rs1) {
    return i_type((int32_t)csr, rs1, 2, rd, 0x73);
}
inline uint32_t csrrsi(uint32_t rd, uint32_t csr, uint32_t immediate) {
    return i_type((int32_t)csr, immediate, 6, rd, 0x73);
}

constexpr uint32_t ecall = 0x00000073, mret = 0x30200073;

}  // namespace assembly
