// The sequential step: one instruction at the next address, what is told of it, and what takes it
// back. Definitions: crates/mono_model/specs/Found.antt, Sequence.antt;
// crates/func_model/specs/Undo.antt.
#pragma once

#include <cstdint>
#include <optional>
#include <string>

#include "hart/result.h"

// What is told of an instruction: all that timing depends on, and no values.
struct Entry {
    uint64_t number = 0, epoch = 0;
    uint32_t address = 0, word = 0, next = 0;
    Instruction instruction;
    Reach access = Reach::Nothing;  // as it was attempted
    uint8_t width = 0;
    Spot spot = Spot::Nowhere;
    uint32_t access_address = 0;
    Cause cause = Cause::None;
    bool is_unserved = false;  // it reads the time and was given none
    std::optional<uint8_t> sent;
    Halt halt = Halt::None;
    uint16_t code = 0;
    // Behind it: whether the timer interrupt is enabled, and mtimecmp.
    bool interrupt_enabled = false;
    uint64_t compare = 0;

    bool has_cause() const { return cause != Cause::None; }
    bool is_fetchable() const {
        return word != 0 ||
               (cause != Cause::InstructionMisaligned && cause != Cause::InstructionAccess);
    }
    bool accesses_ram(Reach reach) const {
        return access == reach && spot == Spot::Ram && !has_cause();
    }
    bool is_fence_i() const { return instruction.operation == Operation::FenceI && !has_cause(); }
};

// What takes an instruction back.
struct UndoStep {
    uint64_t number = 0;
    uint32_t pc = 0;
    uint8_t changed_register = 0;
    uint32_t register_before = 0;
    uint8_t stored_width = 0;
    uint32_t stored_address = 0, memory_before = 0;
    Csrs csrs;
    Devices devices;
    bool has_sent = false;
};

// Executes the next instruction, with a time or none. Nothing changes, and the answer is nothing,
// where it would send a byte for which there is no room.
std::optional<Entry> sequential_step(State& state, Memory& memory, const std::string& input,
                                     std::optional<uint64_t> time, uint64_t output_room,
                                     UndoStep* undo);

void take_back(State& state, Memory& memory, const UndoStep& undo);
