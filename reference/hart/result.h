// What an instruction computes of its operands and of what it sees, and what it changes. The
// sequential step and both pipelines have these two words in common.
// Definitions: crates/mono_model/specs/Result.antt, Effect.antt.
#pragma once

#include <cstdint>
#include <optional>
#include <string>

#include "hart/memory.h"
#include "hart/state.h"

// What an instruction comes to.
struct Result {
    uint32_t value = 0, next = 0;
    // The load or store as it was attempted.
    Reach access = Reach::Nothing;
    uint8_t width = 0;
    Spot spot = Spot::Nowhere;
    uint32_t access_address = 0, stored = 0;
    Cause cause = Cause::None;
    uint32_t mtval = 0;
    uint32_t csr_written = 0;  // by a CSR instruction, if it writes

    bool has_cause() const { return cause != Cause::None; }
    void fail(Cause why, uint32_t trap_value) {
        cause = why;
        mtval = trap_value;
    }
    bool accesses_ram(Reach reach) const {
        return access == reach && spot == Spot::Ram && !has_cause();
    }
};

// What an instruction sees beside its operands; RAM as it is under older stores is told apart.
struct Seen {
    const State& state;
    const Memory& memory;
    const std::string& input;
    std::optional<uint64_t> time;
};

// It reads the time: a CSR instruction, or a load with this access.
inline bool is_time_read(const Instruction& instruction, Reach access, uint32_t address,
                         uint8_t width) {
    if (instruction.operation == Operation::Csr) return reads_time(instruction);
    return access == Reach::Load && is_time_address(address, width);
}

// Of a CSR instruction: what it reads and writes. Without a time, one that reads it reads 0.
void access_csr(const Instruction& instruction, uint32_t word, uint32_t source, const Seen& seen,
                Result& result);

// Of a load or store: where it lies, and whether it can be made there.
void place_access(const Outcome& outcome, const Seen& seen, Result& result);

// What a load of a device gives; the device isn't touched.
uint32_t looked_at(const Outcome& outcome, const Seen& seen);

// What an instruction comes to, by its outcome and the value of its first source. `loaded_bytes`
// tells the bytes of RAM that it loads.
template <class LoadedBytes>
Result executed(const Instruction& instruction, uint32_t word, uint32_t source,
                const Outcome& outcome, const Seen& seen, LoadedBytes loaded_bytes) {
    Result result;
    result.value = outcome.value;
    result.next = outcome.next;
    result.fail(outcome.cause, outcome.mtval);
    if (instruction.operation == Operation::Csr)
        access_csr(instruction, word, source, seen, result);
    if (instruction.operation == Operation::Mret) result.next = seen.state.csrs.mepc;
    if (outcome.reach != Reach::Nothing) place_access(outcome, seen, result);
    if (outcome.reach == Reach::Load && !result.has_cause()) {
        uint32_t bytes = result.spot == Spot::Ram ? loaded_bytes() : looked_at(outcome, seen);
        result.value = extended(bytes, outcome.width, outcome.is_signed);
    }
    return result;
}

// Whether the output has no room for the byte that an instruction would send.
inline bool lacks_room(const State& state, const Result& result, uint64_t output_room) {
    return !result.has_cause() && result.access == Reach::Store && result.spot == Spot::Device &&
           state.devices.would_send(result.access_address) && state.output.size() >= output_room;
}

// Changes the state as the instruction at an address does: it retires, or its trap is taken. What a
// store does outside its device is told. FENCE.I leaves the text as it is.
Note effect(const Instruction& instruction, const Result& result, uint32_t address,
            std::optional<uint64_t> time, const std::string& input, State& state, Memory& memory);
