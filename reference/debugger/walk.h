// The run alone, step by step. Definition: crates/func_model/specs/History.antt (walk, end_at).
#pragma once

#include "hart/sequential_step.h"

class Walk {
public:
    explicit Walk(const Setup& setup);

    const Setup& setup;
    State state;
    Memory memory;
    uint64_t position = 0;  // how many steps are made
    Ending ending;          // by a store to the finisher

    // A step: a pending timer interrupt, and an instruction. Where there is no further step nothing
    // changes, and the answer is nothing.
    std::optional<Entry> step(UndoStep& undo);

    // How the run has ended, where there is no further step.
    Ending end() const;

    // The run goes on. That the output is full shows only as the step is tried.
    bool is_going() const { return ending.is_running() && position != setup.cycles; }
};
