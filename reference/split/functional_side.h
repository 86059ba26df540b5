// The functional side: it executes along a path that orders bend, and takes instructions back.
// Definitions: crates/mono_model/specs/Path.antt, Split.antt.
#pragma once

#include <deque>
#include <optional>

#include "hart/sequential_step.h"
#include "split/order.h"

class FunctionalSide {
public:
    explicit FunctionalSide(const Setup& setup);

    State state;
    Memory memory;
    uint64_t made = 0, taken_back = 0;  // how many instructions

    uint64_t position() const { return position_; }
    uint64_t epoch() const { return epoch_; }
    bool is_stopped() const { return is_stopped_; }
    void stop() { is_stopped_ = true; }

    // Whether it isn't stopped, and its journal has room.
    bool may_produce() const { return !is_stopped_ && position_ < committed_ + room_; }

    // Executes the next instruction, and tells of it.
    Entry produce();

    void obey(const Order& order);

    // Goes to an instruction, back by the journal or on by execution.
    void go_to(uint64_t number);

private:
    const Setup& setup_;
    uint64_t room_;
    std::deque<UndoStep> journal_;  // one for each instruction that isn't committed
    uint64_t position_ = 0, committed_ = 0, epoch_ = 0;
    struct Given {
        uint64_t number, time;
    };
    std::optional<Given> given_;  // the time of an instruction
    bool is_stopped_ = false;

    void commit(uint64_t number);
};
