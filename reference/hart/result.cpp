#include "hart/result.h"

void access_csr(const Instruction& instruction, uint32_t word, uint32_t source, const Seen& seen,
                Result& result) {
    auto access = csr_access(seen.state.csrs, instruction, source, seen.time.value_or(0),
                             seen.state.devices.compare());
    if (!access) {
        result.fail(Cause::IllegalInstruction, word);
        return;
    }
    bool is_unserved = reads_time(instruction) && !seen.time;
    result.value = is_unserved ? 0 : access->value;
    result.csr_written = access->written;
}

void place_access(const Outcome& outcome, const Seen& seen, Result& result) {
    result.access = outcome.reach;
    result.access_address = outcome.address;
    result.width = outcome.width;
    result.stored = outcome.stored;
    result.spot = seen.memory.spot(outcome.address, outcome.width);
    if (result.has_cause() || is_accepted(result.spot, outcome.address, outcome.width)) return;
    bool is_load = outcome.reach == Reach::Load;
    result.fail(is_load ? Cause::LoadAccess : Cause::StoreAccess, outcome.address);
}

uint32_t looked_at(const Outcome& outcome, const Seen& seen) {
    bool takes;
    return seen.state.devices.look(seen.input, outcome.address, seen.time.value_or(0), takes);
}

namespace {

Note make_access(const Result& result, std::optional<uint64_t> time, const std::string& input,
                 State& state, Memory& memory) {
    if (result.accesses_ram(Reach::Store)) {
        memory.store(result.access_address, result.width, result.stored);
    } else if (result.access == Reach::Store) {
        Note note = state.devices.store(result.access_address, result.width, result.stored);
        if (note.sent) state.output += (char)*note.sent;
        return note;
    } else if (result.access == Reach::Load && result.spot == Spot::Device) {
        state.devices.load(input, result.access_address, time.value_or(0));
    }
    return Note();
}

}  // namespace

Note effect(const Instruction& instruction, const Result& result, uint32_t address,
            std::optional<uint64_t> time, const std::string& input, State& state, Memory& memory) {
    if (result.has_cause()) {
        state.pc = state.csrs.enter_trap((uint32_t)result.cause, address, result.mtval);
        return Note();
    }
    if (instruction.destination) state.registers[instruction.destination] = result.value;
    Note note = make_access(result, time, input, state, memory);
    if (instruction.operation == Operation::Csr && writes_csr(instruction))
        state.csrs.write(instruction.csr, result.csr_written);
    if (instruction.operation == Operation::Mret) state.csrs.leave_trap();
    state.csrs.retired++;
    state.pc = result.next;
    return note;
}
