// Steps and turns, interrupt, commit and fetch of both timing sides.
#include "split/timing_side.h"

#include <cinttypes>

#include "base/text.h"

TimingSide::TimingSide(const Setup& setup)
    : setup(setup),
      parameters(setup.parameters),
      caches(setup.parameters),
      predictor_(setup.parameters),
      fetch_address_(setup.image.entry) {}

bool TimingSide::take(const Entry& entry) {
    if (entry.epoch != epoch_) return false;
    if (entry.number != next_)
        internal_fault("entry %" PRIu64 " is taken for %" PRIu64, entry.number, next_);
    held_ = entry;
    return true;
}

std::optional<Order> TimingSide::step() {
    if (owed_.empty()) make_turn();
    if (owed_.empty()) return std::nullopt;
    Order order = owed_.front();
    owed_.pop_front();
    if (order.opens()) {
        epoch_++;
        held_.reset();
    }
    return order;
}

void TimingSide::make_turn() {
    unsigned fetch = phase_count(), last_order = fetch + 1;
    if (turn_ < fetch) {
        play_phase(turn_);
        turn_ = ending.is_running() ? turn_ + 1 : fetch;
        tries_ = 0;
        fetch_has_ended_ = false;
    } else if (turn_ == fetch) {
        if (may_try())
            try_fetch();
        else
            end_cycle();
    } else if (turn_ == last_order) {
        owe(Order::Kind::Stop, to_commit_);
        turn_++;
    }
}

void TimingSide::end_cycle() {
    cycle++;
    if (ending.is_running() && cycle == setup.cycles) ending.end = End::Limit;
    turn_ = ending.is_running() ? 0 : phase_count() + 1;
}

void TimingSide::flush_from(uint64_t number) {
    uint64_t kept = number - to_commit_;
    if (window_.size() > kept) {
        counts.squashed += window_.size() - kept;
        window_.resize(kept);
    }
    next_ = to_commit_ + window_.size();
    resume_ = 0;
    is_paid_ = false;
}

// Keeps the slots below a number, which stands at an address.
void TimingSide::redirect(uint64_t number, uint32_t address) {
    flush_from(number);
    fetch_address_ = address;
}

void TimingSide::replay() {
    redirect(to_commit_, window_.front().entry.address);
    counts.replays++;
    owe(Order::Kind::Time, to_commit_, cycle);
}

void TimingSide::interrupt_phase() {
    if (!interrupt_enabled_ || cycle < compare_) return;
    flush_from(to_commit_);
    fetch_address_.reset();
    interrupt_enabled_ = false;
    counts.interrupts++;
    owe(Order::Kind::Interrupt, to_commit_);
}

// The oldest slot leaves the window.
void TimingSide::leave(const Entry& entry) {
    window_.pop_front();
    to_commit_++;
    interrupt_enabled_ = entry.interrupt_enabled;
    compare_ = entry.compare;
}

// A trap or a FENCE.I left: all younger slots are flushed.
void TimingSide::go_on_behind_flush(Order::Kind kind, const Entry& entry) {
    redirect(to_commit_, entry.next);
    owe(Order::Kind::Commit, to_commit_);
    owe(kind, to_commit_, kind == Order::Kind::Set ? entry.next : 0);
}

void TimingSide::commit_phase(uint32_t width) {
    uint64_t before = to_commit_;
    for (uint32_t k = 0; k < width && !window_.empty(); k++) {
        if (window_.front().stage != Stage::Done) break;
        const Entry entry = window_.front().entry;
        if (entry.has_cause()) {
            counts.exceptions++;
            leave(entry);
            return go_on_behind_flush(Order::Kind::Set, entry);
        }
        if (entry.sent && sent >= setup.output) {
            ending.end = End::OutputFull;
            break;
        }
        leave(entry);
        retired++;
        sent += entry.sent.has_value();
        if (entry.accesses_ram(Reach::Store)) caches.store(entry.access_address);
        counts.branches += entry.instruction.flow != Flow::Plain;
        predictor_.train(entry.address, entry.instruction.flow, entry.next);
        ending = ending_of(entry.halt, entry.code);
        if (!ending.is_running()) break;
        if (entry.is_fence_i()) return go_on_behind_flush(Order::Kind::Sync, entry);
    }
    if (to_commit_ != before) owe(Order::Kind::Commit, to_commit_);
}

void TimingSide::try_fetch() {
    if (!held_) internal_fault("a try without an entry");
    const Entry& entry = *held_;
    tries_++;
    if (fetch_address_ && *fetch_address_ != entry.address)
        internal_fault("entry at %08x, fetch at %08x", entry.address, *fetch_address_);
    if (entry.is_fetchable() && !is_paid_) {
        uint32_t cycles = caches.fetch(entry.address);
        if (cycles > 0) {
            fetch_address_ = entry.address;
            resume_ = cycle + cycles;
            is_paid_ = fetch_has_ended_ = true;
            return;
        }
    }
    Slot slot;
    slot.entry = entry;
    slot.predicted = predictor_.predict(entry.address);
    slot.since = cycle;
    window_.push_back(slot);
    held_.reset();
    next_++;
    counts.fetched++;
    is_paid_ = false;
    fetch_address_ = slot.predicted;
    if (slot.predicted != slot.entry.address + 4) fetch_has_ended_ = true;
    if (slot.entry.next != slot.predicted) owe(Order::Kind::Set, next_, slot.predicted);
}
