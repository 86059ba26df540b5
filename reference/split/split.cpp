#include "split/split.h"

#include <cinttypes>
#include <cstdio>

#include "base/text.h"

void Split::play(char event) {
    switch (event) {
        case 'O':
            if (!orders_.empty()) obey();
            break;
        case 'C':
            if (!computed_ && functional.may_produce()) computed_ = functional.produce();
            break;
        case 'P':
            if (!computed_ || entries_.size() >= setup_.ring) break;
            entries_.push_back(*computed_);
            computed_.reset();
            break;
        case 'K':
            if (timing->wants_entry() && !entries_.empty()) take();
            break;
        case 'T':
            if (!in_hand_ && !timing->is_halted() && !timing->wants_entry()) step();
            break;
        case 'S':
            if (!in_hand_ || orders_.size() >= order_room) break;
            orders_.push_back(*in_hand_);
            in_hand_.reset();
            break;
    }
}

void Split::obey() {
    Order order = orders_.front();
    orders_.pop_front();
    functional.obey(order);
    if (order.opens()) computed_.reset();
}

void Split::take() {
    Entry entry = entries_.front();
    entries_.pop_front();
    taken++;
    if (!timing->take(entry)) dropped++;
}

void Split::step() {
    in_hand_ = timing->step();
    if (in_hand_ && tells_orders)
        fprintf(stderr, "cycle %" PRIu64 ": %s{%" PRIu64 ", %" PRIx64 "}\n", timing->cycle,
                in_hand_->name(), in_hand_->number, in_hand_->value);
}

void Split::play_plan(const std::string& plan) {
    for (char event : plan)
        if (event != ' ' && event != '\r' && event != '\n') play(event);
}

void Split::play_to_boundary() {
    while (!is_at_boundary())
        for (char event : round_of_events)
            if (event != 'T' || !timing->is_at_boundary()) play(event);
}

void Split::play_to_end() {
    while (!is_over())
        for (char event : round_of_events)
            play(event);
}

void Split::settle() {
    if (timing->to_commit() > functional.position())
        internal_fault("what is committed is above the position");
    functional.go_to(timing->to_commit());
    functional.stop();
    if (functional.state.csrs.retired != timing->retired ||
        functional.state.output.size() != timing->sent)
        internal_fault("the sides count retired instructions or output otherwise");
}

Final Split::final() const {
    Final final;
    final.ending = timing->ending;
    final.cycles = timing->cycle;
    final.counts = timing->counts;
    final.caches = timing->caches.counts;
    final.version = setup_.parameters.version;
    return final;
}
