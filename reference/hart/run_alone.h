// The run without a pipeline: one instruction a step, and the step's number is the time.
// Definition: crates/mono_model/specs/Alone.antt.
#pragma once

#include <functional>

#include "hart/sequential_step.h"

// Runs to the end. `on_step` is told of each instruction and its step, if it is there.
Final run_alone(const Setup& setup, State& state, Memory& memory,
                const std::function<void(const Entry&, uint64_t)>& on_step = nullptr);
