// The monolithic machine: a pipeline around a reorder buffer that holds values and executes at
// issue. Definitions: crates/mono_model/specs/Window.antt, Interrupt.antt, Commit.antt,
// Complete.antt, Issue.antt, Fetch.antt, Cycle.antt.
//
// The definition searches the window; here each record knows what it waits for, and cycles in
// which nothing can happen are passed over. `reference sched` holds this machine against the split
// one, which searches.
#pragma once

#include "pipeline/pipeline.h"
#include "pipeline/place_set.h"

class Monolithic : public Pipeline {
public:
    explicit Monolithic(const Setup& setup) : Pipeline(setup) {}

    // Whether cycles in which nothing happens are passed over; no result depends on it.
    bool skips_idle_cycles = true;

    void make_cycle();
    // Goes on to a cycle, or to the end.
    void run_until(uint64_t goal);
    void run() { run_until(~0ull); }

    // The window, the oldest record first.
    uint32_t window_size() const { return (uint32_t)(next_ - oldest_); }
    const Record& record_at(uint32_t place) const { return record(oldest_ + place); }

private:
    static constexpr uint32_t room = 256;

    // Records by their numbers, which count from 1.
    Record records_[room];
    uint64_t oldest_ = 1, next_ = 1;
    // The youngest record that writes each register, if it is at least the oldest.
    uint64_t writers_[32] = {0};
    PlaceSet awaited_by_[room];  // the places of those that wait for a record's value
    uint64_t ready_[room];       // those that wait, and whose operands have values, in order
    uint32_t ready_count_ = 0, waiting_count_ = 0;
    uint64_t executing_[room];  // those that execute, in no order
    uint32_t executing_count_ = 0, division_count_ = 0;
    uint64_t next_completion_ = ~0ull;  // no record is done before this cycle
    uint64_t stores_[room];  // the stores in the window, in order, in places that go round
    uint32_t first_store_ = 0, store_end_ = 0;
    uint64_t goal_ = ~0ull;  // no idle cycle is passed over beyond this one

    Record& record(uint64_t number) { return records_[number % room]; }
    const Record& record(uint64_t number) const { return records_[number % room]; }
    uint64_t store(uint32_t place) const { return stores_[place % room]; }

    // Each phase tells whether anything happened in it.
    bool interrupt_phase();
    bool commit_phase();
    bool complete_phase();
    bool issue_phase();
    bool fetch_phase();

    void flush_from(uint64_t number, uint32_t address);
    void forget(uint64_t number, uint64_t kept_below);
    void append();
    bool must_await(uint64_t producer);
    void wake_those_awaiting(uint64_t number);
    void add_ready(uint64_t number);
    uint32_t operand(uint64_t producer, uint8_t source) const;

    struct Units {
        uint32_t alu, mul, div, mem;
    };
    enum class Turn { Passes, Begins, Replays };
    // The barrier of loads is the oldest store that isn't done.
    Turn issue_turn(uint64_t number, Units& units, uint64_t barrier);
    uint32_t* units_for(Class unit, Units& units);
    bool class_allows(uint64_t number, const Outcome& outcome, uint64_t barrier) const;
    uint64_t latency_of(const Record& record);
    void begin(uint64_t number);
    uint64_t first_unfinished_store() const;
    uint32_t loaded_bytes(uint64_t number, uint32_t address, uint8_t width) const;

    void skip_idle_cycles();
};
