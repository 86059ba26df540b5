#include "hart/sequential_step.h"

namespace {

// What stands at the next address comes to.
Result result_at(const Seen& seen, Entry& entry) {
    const State& state = seen.state;
    Result result;
    if (state.pc & 3) {
        result.fail(Cause::InstructionMisaligned, state.pc);
    } else if (!seen.memory.fetch(state.pc, entry.word)) {
        result.fail(Cause::InstructionAccess, state.pc);
    } else {
        entry.instruction = decode(entry.word);
        if (entry.instruction.operation == Operation::Illegal)
            result.fail(Cause::IllegalInstruction, entry.word);
    }
    if (result.has_cause()) return result;
    const Instruction& instruction = entry.instruction;
    uint32_t first = state.registers[instruction.first_source];
    Outcome outcome =
        evaluate(instruction, state.pc, first, state.registers[instruction.second_source]);
    return executed(instruction, entry.word, first, outcome, seen,
                    [&] { return seen.memory.load(outcome.address, outcome.width); });
}

// What the instruction is about to change.
UndoStep undo_of(const State& state, const Memory& memory, const Instruction& instruction,
                 const Result& result) {
    UndoStep undo;
    undo.pc = state.pc;
    undo.csrs = state.csrs;
    undo.devices = state.devices;
    if (result.has_cause()) return undo;
    undo.changed_register = instruction.destination;
    undo.register_before = state.registers[instruction.destination];
    if (result.accesses_ram(Reach::Store)) {
        undo.stored_width = result.width;
        undo.stored_address = result.access_address;
        undo.memory_before = memory.load(result.access_address, result.width);
    }
    return undo;
}

}  // namespace

std::optional<Entry> sequential_step(State& state, Memory& memory, const std::string& input,
                                     std::optional<uint64_t> time, uint64_t output_room,
                                     UndoStep* undo) {
    Entry entry;
    entry.address = state.pc;
    Result result = result_at(Seen{state, memory, input, time}, entry);
    if (lacks_room(state, result, output_room)) return std::nullopt;
    if (undo) *undo = undo_of(state, memory, entry.instruction, result);
    Note note = effect(entry.instruction, result, entry.address, time, input, state, memory);
    if (undo) undo->has_sent = note.sent.has_value();
    entry.next = state.pc;
    entry.access = result.access;
    entry.width = result.width;
    entry.spot = result.spot;
    entry.access_address = result.access_address;
    entry.cause = result.cause;
    entry.is_unserved = !time && is_time_read(entry.instruction, result.access,
                                              result.access_address, result.width);
    entry.sent = note.sent;
    entry.halt = note.halt;
    entry.code = note.code;
    entry.interrupt_enabled = state.csrs.mie && state.csrs.mtie;
    entry.compare = state.devices.compare();
    return entry;
}

void take_back(State& state, Memory& memory, const UndoStep& undo) {
    state.pc = undo.pc;
    state.csrs = undo.csrs;
    state.devices = undo.devices;
    if (undo.changed_register) state.registers[undo.changed_register] = undo.register_before;
    if (undo.stored_width) memory.store(undo.stored_address, undo.stored_width, undo.memory_before);
    if (undo.has_sent) state.output.pop_back();
}
