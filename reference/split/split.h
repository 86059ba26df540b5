// The two sides, what is under way between them, and the six events.
// Definition: crates/mono_model/specs/Split.antt.
#pragma once

#include <deque>
#include <memory>
#include <optional>
#include <string>

#include "split/functional_side.h"
#include "split/timing_side.h"

// The events in the order of a round, as a plan writes them: the functional side obeys and
// computes, an entry is pushed and taken, the timing side makes a step, an order is sent.
inline const std::string round_of_events = "OCPKTS";

class Split {
public:
    Split(const Setup& setup, std::unique_ptr<TimingSide> timing)
        : functional(setup), timing(std::move(timing)), setup_(setup) {}

    FunctionalSide functional;
    std::unique_ptr<TimingSide> timing;
    uint64_t taken = 0, dropped = 0;  // entries
    bool tells_orders = false;        // a line on standard error for each

    // Plays an event; one that can't happen changes nothing.
    void play(char event);

    // Plays a plan, whose blanks are no events.
    void play_plan(const std::string& plan);

    // No order is owed, in hand or under way, and a cycle begins or the run has ended.
    bool is_at_boundary() const { return timing->is_at_boundary() && !in_hand_ && orders_.empty(); }
    // Rounds up to the next boundary, without steps of a timing side that stands there.
    void play_to_boundary();

    bool is_over() const { return timing->is_halted() && functional.is_stopped(); }
    void play_to_end();

    // At a boundary: the functional side goes to what is committed, and stays there.
    void settle();

    Final final() const;

private:
    static constexpr size_t order_room = 64;

    const Setup& setup_;
    std::optional<Entry> computed_;
    std::optional<Order> in_hand_;
    std::deque<Entry> entries_;
    std::deque<Order> orders_;

    void obey();
    void step();
    void take();
};
