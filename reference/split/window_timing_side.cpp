// Completion and issue of the monolithic machine's timing side, by searches in the window.
// Definitions: crates/timing_side/specs/Complete.antt, Issue.antt.
#include "split/timing_side.h"

void WindowTimingSide::play_phase(unsigned place) {
    switch (place) {
        case 0: return interrupt_phase();
        case 1: return commit_phase(parameters.core_commit);
        case 2: return complete_phase();
        default: return issue_phase();
    }
}

bool WindowTimingSide::has_room() const {
    uint32_t waiting = 0;
    for (const Slot& slot : window_)
        waiting += slot.stage == Stage::Waiting;
    return window_.size() < parameters.core_window && waiting < parameters.core_stations;
}

// The oldest mispredicted slot flushes what is younger, which then isn't done.
void WindowTimingSide::complete_phase() {
    for (size_t place = 0; place < window_.size(); place++) {
        Slot& slot = window_[place];
        if (slot.stage != Stage::Executing || slot.until != cycle) continue;
        slot.stage = Stage::Done;
        if (!slot.is_mispredicted()) continue;
        uint32_t next = slot.entry.next;
        counts.mispredicted++;
        redirect(number_at(place) + 1, next);
        owe(Order::Kind::Set, number_at(place) + 1, next);
    }
}

void WindowTimingSide::issue_phase() {
    Units used;
    for (size_t place = 0; place < window_.size(); place++) {
        Slot& slot = window_[place];
        bool is_ready = slot.stage == Stage::Waiting &&
                        cycle >= slot.since + parameters.core_front &&
                        has_value(place, slot.entry.instruction.first_source) &&
                        has_value(place, slot.entry.instruction.second_source);
        if (!is_ready) continue;
        if (place == 0 && slot.entry.is_unserved) return replay();
        if (!class_allows(place) || !takes_unit(place, used)) continue;
        slot.until = cycle + latency_of(slot.entry);
        slot.stage = Stage::Executing;
    }
}

// The youngest older slot that writes the source is done without a cause, or there is none.
bool WindowTimingSide::has_value(size_t place, uint8_t source) const {
    if (source == 0) return true;
    while (place-- > 0) {
        const Slot& older = window_[place];
        if (older.writes(source)) return older.stage == Stage::Done && !older.entry.has_cause();
    }
    return true;
}

bool WindowTimingSide::are_older_stores_done(size_t place) const {
    while (place-- > 0) {
        const Slot& older = window_[place];
        if (older.entry.instruction.unit == Class::Store && older.stage != Stage::Done)
            return false;
    }
    return true;
}

bool WindowTimingSide::class_allows(size_t place) const {
    const Entry& entry = window_[place].entry;
    switch (entry.instruction.unit) {
        case Class::Serial: return place == 0;
        case Class::Load:
            return entry.spot == Spot::Device ? place == 0 : are_older_stores_done(place);
        default: return true;
    }
}

bool WindowTimingSide::takes_unit(size_t place, Units& used) const {
    switch (window_[place].entry.instruction.unit) {
        case Class::Mul: return used.mul++ < parameters.mul_count;
        case Class::Div: {
            uint32_t dividing = 0;
            for (const Slot& slot : window_)
                dividing +=
                    slot.entry.instruction.unit == Class::Div && slot.stage == Stage::Executing;
            return dividing < parameters.div_count;
        }
        case Class::Load:
        case Class::Store: return used.mem++ < parameters.mem_count;
        default: return used.alu++ < parameters.alu_count;
    }
}

uint64_t WindowTimingSide::latency_of(const Entry& entry) {
    switch (entry.instruction.unit) {
        case Class::Mul: return parameters.mul_latency;
        case Class::Div: return parameters.div_latency;
        case Class::Load:
            return parameters.mem_latency +
                   (entry.accesses_ram(Reach::Load) ? caches.load(entry.access_address) : 0);
        case Class::Store: return parameters.mem_latency;
        default: return parameters.alu_latency;
    }
}
