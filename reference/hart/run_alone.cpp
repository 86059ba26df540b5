#include "hart/run_alone.h"

Final run_alone(const Setup& setup, State& state, Memory& memory,
                const std::function<void(const Entry&, uint64_t)>& on_step) {
    Final final;
    final.has_pipeline = false;
    state.pc = setup.image.entry;
    memory.open(setup.parameters.ram_base, setup.parameters.ram_size, setup.image);
    for (uint64_t step = 0; step < setup.cycles; step++) {
        if (state.take_interrupt(step)) final.counts.interrupts++;
        auto entry = sequential_step(state, memory, setup.input, step, setup.output, nullptr);
        if (!entry) {
            final.ending.end = End::OutputFull;
            return final;
        }
        if (on_step) on_step(*entry, step);
        if (entry->has_cause()) final.counts.exceptions++;
        if (entry->is_fence_i()) memory.synchronise();
        final.ending = ending_of(entry->halt, entry->code);
        if (!final.ending.is_running()) return final;
    }
    final.ending.end = End::Limit;
    return final;
}
