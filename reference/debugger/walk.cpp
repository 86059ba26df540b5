#include "debugger/walk.h"

Walk::Walk(const Setup& setup) : setup(setup) {
    state.pc = setup.image.entry;
    memory.open(setup.parameters.ram_base, setup.parameters.ram_size, setup.image);
}

std::optional<Entry> Walk::step(UndoStep& undo) {
    if (!is_going()) return std::nullopt;
    uint32_t pc = state.pc;
    Csrs csrs = state.csrs;
    Devices devices = state.devices;
    state.take_interrupt(position);
    auto entry = sequential_step(state, memory, setup.input, position, setup.output, &undo);
    if (!entry) {
        state.pc = pc;
        state.csrs = csrs;
        return std::nullopt;
    }
    // The interrupt is taken back with the instruction.
    undo.pc = pc;
    undo.csrs = csrs;
    undo.devices = devices;
    position++;
    if (entry->is_fence_i()) memory.synchronise();
    ending = ending_of(entry->halt, entry->code);
    return entry;
}

Ending Walk::end() const {
    if (!ending.is_running()) return ending;
    return Ending{position == setup.cycles ? End::Limit : End::OutputFull, 0};
}
