// The timing side: the pipeline over entries, which holds no values. What the two machines share
// stands here. Definitions: crates/mono_model/specs/Demand.antt, Split.antt;
// crates/timing_side/specs.
#pragma once

#include <deque>
#include <optional>

#include "hart/state.h"
#include "pipeline/caches.h"
#include "pipeline/in_order.h"
#include "pipeline/predictor.h"
#include "split/order.h"

// An instruction in the window.
struct Slot {
    Entry entry;
    uint32_t predicted = 0;
    uint64_t since = 0, until = 0;
    Stage stage = Stage::Waiting;
    // In order: where it stands, and for how many cycles it stays there.
    Place place = Place::Decode;
    uint64_t wait = 0;

    bool is_mispredicted() const { return !entry.has_cause() && entry.next != predicted; }
    bool writes(uint8_t source) const { return entry.instruction.destination == source; }
};

class TimingSide {
public:
    explicit TimingSide(const Setup& setup);
    virtual ~TimingSide() {}

    const Setup& setup;
    const Parameters& parameters;
    Caches caches;
    Counts counts;
    Ending ending;
    uint64_t cycle = 0;
    uint64_t retired = 0, sent = 0;  // instructions, and bytes of output

    // The number of the next instruction to commit.
    uint64_t to_commit() const { return to_commit_; }

    // A try needs an entry, and none is held.
    bool wants_entry() const { return needs_entry() && !held_; }
    // No order is owed, and a cycle begins or the run has ended.
    bool is_at_boundary() const { return owed_.empty() && (turn_ == 0 || turn_ > phase_count()); }
    bool is_halted() const { return owed_.empty() && turn_ == phase_count() + 2; }

    // Takes an entry; one of an older epoch is dropped, and the answer is false.
    bool take(const Entry& entry);

    // Makes a step: a turn, or an owed order is told. The answer is the order that was told.
    std::optional<Order> step();

protected:
    Predictor predictor_;
    std::deque<Slot> window_;  // the oldest slot first

    // The phases before fetch, by their places.
    virtual unsigned phase_count() const = 0;
    virtual void play_phase(unsigned place) = 0;
    // Whether the pipeline has room for what a try of fetch appends.
    virtual bool has_room() const = 0;
    virtual uint32_t fetch_width() const = 0;

    void interrupt_phase();
    void commit_phase(uint32_t width);

    void flush_from(uint64_t number);
    void redirect(uint64_t number, uint32_t address);
    // The oldest slot goes back to fetch, to be given this cycle as its time.
    void replay();
    void owe(Order::Kind kind, uint64_t number, uint64_t value = 0) {
        owed_.push_back(Order{kind, number, value});
    }
    uint64_t number_at(size_t place) const { return to_commit_ + place; }

private:
    uint64_t to_commit_ = 0, next_ = 0, epoch_ = 0;
    // Where fetch goes on; nothing where the functional side alone knows it.
    std::optional<uint32_t> fetch_address_;
    uint64_t resume_ = 0;
    bool is_paid_ = false;
    // Behind what is committed: whether the timer interrupt is enabled, and mtimecmp.
    bool interrupt_enabled_ = false;
    uint64_t compare_ = ~0ull;
    // The next turn: a phase, the tries of fetch with the end of the cycle, the last order; the
    // greatest number once that was made.
    unsigned turn_ = 0;
    uint32_t tries_ = 0;
    bool fetch_has_ended_ = false;
    std::deque<Order> owed_;  // of a turn that was made, not told yet
    std::optional<Entry> held_;

    bool may_try() const {
        return ending.is_running() && tries_ < fetch_width() && !fetch_has_ended_ &&
               cycle >= resume_ && has_room();
    }
    bool needs_entry() const { return owed_.empty() && turn_ == phase_count() && may_try(); }
    void make_turn();
    void end_cycle();
    void try_fetch();
    void leave(const Entry& entry);
    void go_on_behind_flush(Order::Kind kind, const Entry& entry);
};

// The timing side of the monolithic machine.
class WindowTimingSide : public TimingSide {
public:
    using TimingSide::TimingSide;

private:
    unsigned phase_count() const override { return 4; }
    void play_phase(unsigned place) override;
    bool has_room() const override;
    uint32_t fetch_width() const override { return parameters.core_fetch; }

    void complete_phase();
    void issue_phase();
    struct Units {
        uint32_t alu = 0, mul = 0, div = 0, mem = 0;
    };
    bool issues(size_t place, Units& used) const;
    bool class_allows(size_t place) const;
    bool takes_unit(size_t place, Units& used) const;
    bool has_value(size_t place, uint8_t source) const;
    bool are_older_stores_done(size_t place) const;
    uint64_t latency_of(const Entry& entry);
};

// The timing side of the in-order machine. Definitions: crates/lane_side/specs.
class InOrderTimingSide : public TimingSide {
public:
    using TimingSide::TimingSide;

private:
    unsigned phase_count() const override { return 5; }
    void play_phase(unsigned place) override;
    bool has_room() const override { return !in(Place::Decode); }
    uint32_t fetch_width() const override { return 1; }

    // The place in the window of the slot in a stage, if there is one.
    std::optional<size_t> in(Place place) const;
    void memory_phase();
    void execute_phase();
    void issue_phase();
    bool has_value(size_t place, uint8_t source) const;
    uint64_t wait_in_execute(Class unit) const;
};
