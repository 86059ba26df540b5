// What a debugger sees at each position of a run. Definition: crates/gdb_model/specs/Position.antt.
#pragma once

#include <memory>
#include <optional>
#include <string>
#include <vector>

#include "debugger/walk.h"

// A position: after so many steps, before the next one.
struct Position {
    uint32_t next_address;      // of the next instruction; a pending timer interrupt comes first
    std::optional<Ending> end;  // where there is no step
    // What the step loads or stores, if it doesn't trap.
    Reach access = Reach::Nothing;
    uint32_t address = 0;
    uint8_t width = 0;
    bool is_fence_i = false;  // the step is a FENCE.I
};

// The positions of a run are laid out as far as somebody has looked. What is more than a position
// keeps is had from a walk, which begins again at the start to go back.
class Positions {
public:
    explicit Positions(const Setup& setup);

    const Position& at(uint64_t position);

    // The state that the next instruction finds.
    State found(uint64_t position);
    std::optional<uint32_t> register_value(uint64_t position, uint64_t number);
    std::optional<uint8_t> byte(uint64_t position, uint64_t address);
    std::string output(uint64_t position) { return walk_to(position).state.output; }

private:
    const Setup& setup_;
    Walk front_;  // at the last position that is laid out
    std::vector<Position> positions_;
    std::unique_ptr<Walk> walk_;  // at the position that was looked at last

    void lay_out_next();
    const Walk& walk_to(uint64_t position);
};
