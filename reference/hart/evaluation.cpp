// What instructions compute. Definitions: crates/rv_exec/specs/Eval.antt and those it stands on.
#include "hart/instruction.h"

namespace {

// Definition: crates/rv_exec/specs/Alu.antt.
uint32_t computed(uint8_t kind, bool is_alternative, uint32_t first, uint32_t second) {
    switch (kind) {
        case 0: return is_alternative ? first - second : first + second;
        case 1: return first << (second & 31);
        case 2: return (int32_t)first < (int32_t)second;
        case 3: return first < second;
        case 4: return first ^ second;
        case 5:
            return is_alternative ? (uint32_t)((int32_t)first >> (second & 31))
                                  : first >> (second & 31);
        case 6: return first | second;
        default: return first & second;
    }
}

uint32_t upper_half(int64_t product) {
    return (uint32_t)((uint64_t)product >> 32);
}

// Definition: crates/rv_exec/specs/MulDiv.antt.
uint32_t multiplied_or_divided(uint8_t kind, uint32_t first, uint32_t second) {
    bool overflows = first == 0x80000000u && second == 0xFFFFFFFFu;
    switch (kind) {
        case 0: return first * second;
        case 1: return upper_half((int64_t)(int32_t)first * (int64_t)(int32_t)second);
        case 2: return upper_half((int64_t)(int32_t)first * (int64_t)(uint64_t)second);
        case 3: return (uint32_t)((uint64_t)first * (uint64_t)second >> 32);
        case 4:
            if (second == 0) return 0xFFFFFFFFu;
            return overflows ? first : (uint32_t)((int32_t)first / (int32_t)second);
        case 5: return second == 0 ? 0xFFFFFFFFu : first / second;
        case 6:
            if (second == 0) return first;
            return overflows ? 0 : (uint32_t)((int32_t)first % (int32_t)second);
        default: return second == 0 ? first : first % second;
    }
}

// Definition: crates/rv_exec/specs/Branch.antt.
bool is_taken(uint8_t kind, uint32_t first, uint32_t second) {
    switch (kind) {
        case 0: return first == second;
        case 1: return first != second;
        case 4: return (int32_t)first < (int32_t)second;
        case 5: return (int32_t)first >= (int32_t)second;
        case 6: return first < second;
        default: return first >= second;
    }
}

// A jump goes to a target that is a multiple of four, or has a cause.
void go_to(uint32_t target, Outcome& outcome) {
    if (target & 3) {
        outcome.cause = Cause::InstructionMisaligned;
        outcome.mtval = target;
    } else {
        outcome.next = target;
    }
}

void reach_for(Reach reach, uint32_t target, uint8_t width, Outcome& outcome) {
    outcome.reach = reach;
    outcome.address = target;
    outcome.width = width;
    if (target & (width - 1u)) {
        outcome.cause = reach == Reach::Load ? Cause::LoadMisaligned : Cause::StoreMisaligned;
        outcome.mtval = target;
    }
}

}  // namespace

Outcome evaluate(const Instruction& instruction, uint32_t address, uint32_t first,
                 uint32_t second) {
    Outcome outcome;
    outcome.next = address + 4;
    switch (instruction.operation) {
        case Operation::Lui: outcome.value = instruction.immediate; break;
        case Operation::Auipc: outcome.value = address + instruction.immediate; break;
        case Operation::Jal:
        case Operation::Jalr:
            outcome.value = address + 4;
            go_to(instruction.operation == Operation::Jal ? address + instruction.immediate
                                                          : (first + instruction.immediate) & ~1u,
                  outcome);
            break;
        case Operation::Branch:
            if (is_taken(instruction.kind, first, second))
                go_to(address + instruction.immediate, outcome);
            break;
        case Operation::Load:
            reach_for(Reach::Load, first + instruction.immediate,
                      (uint8_t)(1u << (instruction.kind & 3)), outcome);
            outcome.is_signed = instruction.kind < 4;
            break;
        case Operation::Store:
            reach_for(Reach::Store, first + instruction.immediate,
                      (uint8_t)(1u << instruction.kind), outcome);
            outcome.stored = second;
            break;
        case Operation::Immediate:
            outcome.value = computed(instruction.kind, instruction.is_alternative, first,
                                     instruction.immediate);
            break;
        case Operation::Register:
            outcome.value = computed(instruction.kind, instruction.is_alternative, first, second);
            break;
        case Operation::MulDiv:
            outcome.value = multiplied_or_divided(instruction.kind, first, second);
            break;
        case Operation::Ecall: outcome.cause = Cause::EnvironmentCall; break;
        case Operation::Ebreak: outcome.cause = Cause::Breakpoint; break;
        default: break;
    }
    return outcome;
}
