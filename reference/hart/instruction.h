// Instructions: what a word means, and what an instruction computes of its operands.
#pragma once

#include <cstdint>

#include "hart/cause.h"

enum class Operation : uint8_t {
    Illegal,
    Lui,
    Auipc,
    Jal,
    Jalr,
    Branch,
    Load,
    Store,
    Immediate,  // an operation on a register and an immediate
    Register,   // an operation on two registers
    MulDiv,
    Fence,
    FenceI,
    Ecall,
    Ebreak,
    Mret,
    Wfi,
    Csr,
};

// Which unit an instruction waits for. Definition: crates/rv_decode/specs/Class.antt.
enum class Class : uint8_t { Alu, Mul, Div, Load, Store, Serial };

// What the predictor learns from it.
enum class Flow : uint8_t { Plain, Branch, Jump };

struct Instruction {
    Operation operation = Operation::Illegal;
    uint8_t kind = 0;  // the field funct3
    uint8_t rd = 0, rs1 = 0, rs2 = 0;
    bool is_alternative = false;  // SUB, SRA and SRAI
    Class unit = Class::Alu;
    Flow flow = Flow::Plain;
    uint8_t first_source = 0, second_source = 0;  // 0 where there is none
    uint8_t destination = 0;                      // 0 where there is none
    uint16_t csr = 0;
    uint32_t immediate = 0;
};

// Definitions: crates/rv_decode/specs/Table.antt, Decode.antt, Class.antt.
Instruction decode(uint32_t word);

struct Outcome {
    uint32_t value = 0, next = 0;
    Reach reach = Reach::Nothing;
    uint8_t width = 0;  // bytes of the access
    bool is_signed = false;
    uint32_t address = 0, stored = 0;
    Cause cause = Cause::None;
    uint32_t mtval = 0;
};

// What an instruction at an address computes of the values of its sources. CSRs, the address to
// which MRET goes and illegal words are left to others.
// Definitions: crates/rv_exec/specs/Eval.antt, Alu.antt, MulDiv.antt, Branch.antt.
Outcome evaluate(const Instruction& instruction, uint32_t address, uint32_t first, uint32_t second);

// A loaded number of so many bytes, extended to 32 bits.
// Definition: crates/rv_exec/specs/Load.antt.
inline uint32_t extended(uint32_t value, uint8_t width, bool is_signed) {
    if (width == 1) return is_signed ? (uint32_t)(int32_t)(int8_t)value : value & 0xFF;
    if (width == 2) return is_signed ? (uint32_t)(int32_t)(int16_t)value : value & 0xFFFF;
    return value;
}
