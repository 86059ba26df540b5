// The phases of a cycle but for issue.
#include "pipeline/monolithic.h"

#include <algorithm>

void Monolithic::make_cycle() {
    bool moves = interrupt_phase();
    moves |= commit_phase();
    if (ending.is_running()) {
        moves |= complete_phase();
        moves |= issue_phase();
        moves |= fetch_phase();
    }
    end_cycle();
    if (!moves && skips_idle_cycles && ending.is_running()) skip_idle_cycles();
}

void Monolithic::run_until(uint64_t goal) {
    goal_ = goal;
    while (ending.is_running() && cycle < goal)
        make_cycle();
}

// Nothing happened in the last cycle, so nothing happens before one of the machine's clocks
// strikes.
void Monolithic::skip_idle_cycles() {
    uint64_t to = std::min(setup.cycles - 1, goal_);
    for (uint32_t k = 0; k < executing_count_; k++)
        to = std::min(to, record(executing_[k]).until);
    if (resume >= cycle) to = std::min(to, resume);
    for (uint32_t k = 0; k < ready_count_; k++) {
        uint64_t past_front = record(ready_[k]).since + parameters.core_front;
        if (past_front >= cycle) to = std::min(to, past_front);
    }
    if (state.csrs.mie && state.csrs.mtie)
        to = std::min(to, std::max(cycle, state.devices.compare()));
    cycle = std::max(cycle, to);
}

bool Monolithic::interrupt_phase() {
    if (!state.take_interrupt(cycle)) return false;
    flush_from(oldest_, state.pc);
    kept_time_.reset();
    counts.interrupts++;
    return true;
}

bool Monolithic::commit_phase() {
    bool moves = false;
    for (uint32_t k = 0; k < parameters.core_commit && oldest_ < next_; k++) {
        if (record(oldest_).stage != Stage::Done) break;
        moves = true;
        Leaving leaving = commit_oldest(record(oldest_));
        if (leaving == Leaving::Full) break;
        if (first_store_ != store_end_ && store(first_store_) == oldest_) first_store_++;
        oldest_++;
        if (leaving == Leaving::Ends) break;
        if (leaving == Leaving::Faults || leaving == Leaving::Synchronises) {
            flush_from(oldest_, state.pc);
            break;
        }
    }
    return moves;
}

bool Monolithic::complete_phase() {
    if (executing_count_ == 0 || next_completion_ > cycle) return false;
    bool moves = false;
    uint64_t mispredicted = ~0ull;
    uint32_t kept = 0;
    next_completion_ = ~0ull;
    for (uint32_t k = 0; k < executing_count_; k++) {
        uint64_t number = executing_[k];
        Record& done = record(number);
        if (done.until != cycle) {
            next_completion_ = std::min(next_completion_, done.until);
            executing_[kept++] = number;
            continue;
        }
        moves = true;
        done.stage = Stage::Done;
        if (done.instruction.destination && !done.has_cause()) wake_those_awaiting(number);
        if (done.instruction.unit == Class::Div) division_count_--;
        if (done.is_mispredicted()) mispredicted = std::min(mispredicted, number);
    }
    executing_count_ = kept;
    if (mispredicted != ~0ull) {
        count_misprediction(record(mispredicted));
        flush_from(mispredicted + 1, record(mispredicted).next);
    }
    return moves;
}

bool Monolithic::fetch_phase() {
    if (cycle < resume) return false;
    for (uint32_t k = 0; k < parameters.core_fetch; k++) {
        bool may_fetch =
            window_size() < parameters.core_window && waiting_count_ < parameters.core_stations;
        if (!may_fetch) return k > 0;
        Record& fetched = record(next_);
        if (!try_fetch(fetched)) return true;
        append();
        if (fetched.predicted != fetched.address + 4) return true;
    }
    return true;
}

// The record that was fetched enters the window.
void Monolithic::append() {
    Record& fetched = record(next_);
    const Instruction& instruction = fetched.instruction;
    awaited_by_[next_ % room].clear();
    fetched.first_producer = writers_[instruction.first_source];
    fetched.second_producer = writers_[instruction.second_source];
    fetched.missing = must_await(fetched.first_producer);
    if (fetched.second_producer != fetched.first_producer)
        fetched.missing += must_await(fetched.second_producer);
    if (fetched.missing == 0) ready_[ready_count_++] = next_;
    waiting_count_++;
    if (instruction.destination) writers_[instruction.destination] = next_;
    if (instruction.unit == Class::Store) stores_[store_end_++ % room] = next_;
    next_++;
}

// Whether the youngest older writer of a source gives no value yet. One with a cause never does.
bool Monolithic::must_await(uint64_t producer) {
    if (producer < oldest_) return false;
    if (record(producer).stage == Stage::Done) return record(producer).has_cause();
    awaited_by_[producer % room].add(next_ % room);
    return true;
}

void Monolithic::wake_those_awaiting(uint64_t number) {
    awaited_by_[number % room].each([&](uint32_t place) {
        if (--records_[place].missing == 0) add_ready(number + (place - (uint32_t)number) % room);
    });
}

void Monolithic::add_ready(uint64_t number) {
    uint32_t place = ready_count_++;
    for (; place > 0 && ready_[place - 1] > number; place--)
        ready_[place] = ready_[place - 1];
    ready_[place] = number;
}

// Keeps the records below a number; fetch goes on at an address.
void Monolithic::flush_from(uint64_t number, uint32_t address) {
    redirect_fetch(address);
    if (number == next_) return;
    counts.squashed += next_ - number;
    for (uint64_t squashed = number; squashed < next_; squashed++)
        forget(squashed, number);
    next_ = number;
    while (ready_count_ > 0 && ready_[ready_count_ - 1] >= number)
        ready_count_--;
    uint64_t* end = std::remove_if(executing_, executing_ + executing_count_,
                                   [&](uint64_t other) { return other >= number; });
    executing_count_ = (uint32_t)(end - executing_);
    while (store_end_ != first_store_ && store(store_end_ - 1) >= number)
        store_end_--;
    std::fill(writers_, writers_ + 32, 0);
    for (uint64_t kept = oldest_; kept < next_; kept++) {
        uint8_t destination = record(kept).instruction.destination;
        if (destination) writers_[destination] = kept;
    }
}

// A squashed record waits for none of those that are kept.
void Monolithic::forget(uint64_t number, uint64_t kept_below) {
    const Record& squashed = record(number);
    if (squashed.stage == Stage::Waiting) {
        waiting_count_--;
        for (uint64_t producer : {squashed.first_producer, squashed.second_producer})
            if (producer >= oldest_ && producer < kept_below)
                awaited_by_[producer % room].remove(number % room);
    }
    if (squashed.stage == Stage::Executing && squashed.instruction.unit == Class::Div)
        division_count_--;
}
