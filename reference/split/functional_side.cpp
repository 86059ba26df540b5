#include "split/functional_side.h"

#include <cinttypes>

#include "base/text.h"

FunctionalSide::FunctionalSide(const Setup& setup)
    : setup_(setup), room_((uint64_t)setup.ring + setup.parameters.core_window + 2) {
    state.pc = setup.image.entry;
    memory.open(setup.parameters.ram_base, setup.parameters.ram_size, setup.image);
}

Entry FunctionalSide::produce() {
    UndoStep undo;
    std::optional<uint64_t> time;
    if (given_ && given_->number == position_) time = given_->time;
    // The output limit is the timing side's.
    Entry entry = *sequential_step(state, memory, setup_.input, time, ~0ull, &undo);
    undo.number = entry.number = position_;
    entry.epoch = epoch_;
    journal_.push_back(undo);
    position_++;
    made++;
    return entry;
}

void FunctionalSide::go_to(uint64_t number) {
    while (position_ > number) {
        if (journal_.empty() || journal_.back().number != position_ - 1)
            internal_fault("the journal ends at %" PRIu64, position_);
        take_back(state, memory, journal_.back());
        journal_.pop_back();
        position_--;
        taken_back++;
    }
    while (position_ < number)
        produce();
}

void FunctionalSide::commit(uint64_t number) {
    if (number < committed_) internal_fault("the committed number falls");
    committed_ = number;
    while (!journal_.empty() && journal_.front().number < number)
        journal_.pop_front();
}

void FunctionalSide::obey(const Order& order) {
    if (order.kind == Order::Kind::Commit) {
        commit(order.number);
        return;
    }
    // The law of the numbers of orders: crates/machine_laws/specs/Numbers.antt.
    if (order.number < committed_ || order.number > position_)
        internal_fault("an order for %" PRIu64, order.number);
    go_to(order.number);
    epoch_++;
    switch (order.kind) {
        case Order::Kind::Set: state.pc = (uint32_t)order.value; break;
        case Order::Kind::Interrupt:
            state.pc = state.csrs.enter_trap(timer_interrupt, state.pc, 0);
            commit(order.number);
            given_.reset();
            break;
        case Order::Kind::Time: given_ = Given{order.number, order.value}; break;
        case Order::Kind::Sync:
            memory.synchronise();
            commit(order.number);
            break;
        case Order::Kind::Stop: is_stopped_ = true; break;
        case Order::Kind::Commit: break;
    }
}
