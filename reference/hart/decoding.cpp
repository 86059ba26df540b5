// From words to instructions. Definitions: crates/rv_decode/specs/Table.antt, Decode.antt.
#include "hart/instruction.h"

namespace {

// The bits of a word from `low` up to `high`, both counted from 0.
uint32_t bits(uint32_t word, unsigned high, unsigned low) {
    return word >> low & ((1ull << (high - low + 1)) - 1);
}

uint32_t sign_bits(uint32_t word, unsigned from) {
    return (uint32_t)((int32_t)(word & 0x80000000u) >> (31 - from));
}

uint32_t immediate_of_i(uint32_t word) {
    return (uint32_t)((int32_t)word >> 20);
}

uint32_t immediate_of_s(uint32_t word) {
    return sign_bits(word, 11) | bits(word, 31, 25) << 5 | bits(word, 11, 7);
}

uint32_t immediate_of_b(uint32_t word) {
    return sign_bits(word, 12) | bits(word, 7, 7) << 11 | bits(word, 30, 25) << 5 |
           bits(word, 11, 8) << 1;
}

uint32_t immediate_of_j(uint32_t word) {
    return sign_bits(word, 20) | bits(word, 19, 12) << 12 | bits(word, 20, 20) << 11 |
           bits(word, 30, 21) << 1;
}

// The words whose fixed bits are all 32, and the instructions of Zicsr.
void decode_system(uint32_t word, Instruction& instruction) {
    switch (word) {
        case 0x00000073: instruction.operation = Operation::Ecall; return;
        case 0x00100073: instruction.operation = Operation::Ebreak; return;
        case 0x10500073: instruction.operation = Operation::Wfi; return;
        case 0x30200073:
            instruction.operation = Operation::Mret;
            instruction.unit = Class::Serial;
            instruction.flow = Flow::Jump;
            return;
    }
    if (instruction.kind == 0 || instruction.kind == 4) return;
    instruction.operation = Operation::Csr;
    instruction.unit = Class::Serial;
    instruction.destination = instruction.rd;
    instruction.csr = (uint16_t)(word >> 20);
    if (instruction.kind < 4) instruction.first_source = instruction.rs1;
}

void decode_immediate(uint32_t word, Instruction& instruction) {
    bool is_shift = instruction.kind == 1 || instruction.kind == 5;
    uint32_t upper = bits(word, 31, 25);
    if (is_shift && upper != 0 && !(instruction.kind == 5 && upper == 0x20)) return;
    instruction.operation = Operation::Immediate;
    instruction.destination = instruction.rd;
    instruction.first_source = instruction.rs1;
    instruction.immediate = is_shift ? instruction.rs2 : immediate_of_i(word);
    instruction.is_alternative = is_shift && upper == 0x20;
}

void decode_register(uint32_t word, Instruction& instruction) {
    uint32_t upper = bits(word, 31, 25);
    bool has_alternative = instruction.kind == 0 || instruction.kind == 5;
    if (upper == 1) {
        instruction.operation = Operation::MulDiv;
        instruction.unit = instruction.kind < 4 ? Class::Mul : Class::Div;
    } else if (upper == 0 || (upper == 0x20 && has_alternative)) {
        instruction.operation = Operation::Register;
        instruction.is_alternative = upper == 0x20;
    } else {
        return;
    }
    instruction.destination = instruction.rd;
    instruction.first_source = instruction.rs1;
    instruction.second_source = instruction.rs2;
}

void decode_transfer(uint32_t word, Instruction& instruction) {
    bool is_load = (word & 127) == 0x03;
    if (is_load ? instruction.kind == 3 || instruction.kind > 5 : instruction.kind > 2) return;
    instruction.first_source = instruction.rs1;
    if (is_load) {
        instruction.operation = Operation::Load;
        instruction.unit = Class::Load;
        instruction.destination = instruction.rd;
        instruction.immediate = immediate_of_i(word);
    } else {
        instruction.operation = Operation::Store;
        instruction.unit = Class::Store;
        instruction.second_source = instruction.rs2;
        instruction.immediate = immediate_of_s(word);
    }
}

void decode_branch(uint32_t word, Instruction& instruction) {
    if (instruction.kind == 2 || instruction.kind == 3) return;
    instruction.operation = Operation::Branch;
    instruction.flow = Flow::Branch;
    instruction.first_source = instruction.rs1;
    instruction.second_source = instruction.rs2;
    instruction.immediate = immediate_of_b(word);
}

void decode_jump(uint32_t word, Instruction& instruction) {
    bool is_register = (word & 127) == 0x67;
    if (is_register && instruction.kind != 0) return;
    instruction.operation = is_register ? Operation::Jalr : Operation::Jal;
    instruction.flow = Flow::Jump;
    instruction.destination = instruction.rd;
    instruction.first_source = is_register ? instruction.rs1 : 0;
    instruction.immediate = is_register ? immediate_of_i(word) : immediate_of_j(word);
}

}  // namespace

Instruction decode(uint32_t word) {
    Instruction instruction;
    instruction.kind = (uint8_t)bits(word, 14, 12);
    instruction.rd = (uint8_t)bits(word, 11, 7);
    instruction.rs1 = (uint8_t)bits(word, 19, 15);
    instruction.rs2 = (uint8_t)bits(word, 24, 20);
    switch (word & 127) {
        case 0x37:
        case 0x17:
            instruction.operation = (word & 127) == 0x37 ? Operation::Lui : Operation::Auipc;
            instruction.destination = instruction.rd;
            instruction.immediate = word & 0xFFFFF000u;
            break;
        case 0x6F:
        case 0x67: decode_jump(word, instruction); break;
        case 0x63: decode_branch(word, instruction); break;
        case 0x03:
        case 0x23: decode_transfer(word, instruction); break;
        case 0x13: decode_immediate(word, instruction); break;
        case 0x33: decode_register(word, instruction); break;
        case 0x0F:
            if (instruction.kind == 0) instruction.operation = Operation::Fence;
            if (instruction.kind == 1) instruction.operation = Operation::FenceI;
            break;
        case 0x73: decode_system(word, instruction); break;
    }
    return instruction;
}
