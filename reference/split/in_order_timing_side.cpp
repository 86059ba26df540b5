// The phases of the in-order machine's timing side.
// Definitions: crates/lane_side/specs/Phases.antt, Issue.antt.
#include "split/timing_side.h"

void InOrderTimingSide::play_phase(unsigned place) {
    switch (place) {
        case 0: return interrupt_phase();
        case 1: return commit_phase(1);
        case 2: return memory_phase();
        case 3: return execute_phase();
        default: return issue_phase();
    }
}

std::optional<size_t> InOrderTimingSide::in(Place place) const {
    for (size_t k = 0; k < window_.size(); k++)
        if (window_[k].place == place) return k;
    return std::nullopt;
}

void InOrderTimingSide::memory_phase() {
    auto place = in(Place::Memory);
    if (!place) return;
    Slot& slot = window_[*place];
    if (slot.wait > 0) {
        slot.wait--;
    } else {
        slot.place = Place::Write;
        slot.stage = Stage::Done;
    }
}

void InOrderTimingSide::execute_phase() {
    auto place = in(Place::Execute);
    if (!place) return;
    Slot& slot = window_[*place];
    if (slot.wait > 0) {
        slot.wait--;
        return;
    }
    if (in(Place::Memory)) return;
    slot.place = Place::Memory;
    Class unit = slot.entry.instruction.unit;
    slot.wait = unit == Class::Load || unit == Class::Store ? parameters.mem_latency - 1 : 0;
    if (slot.entry.accesses_ram(Reach::Load)) slot.wait += caches.load(slot.entry.access_address);
    if (!slot.is_mispredicted()) return;
    uint64_t number = number_at(*place) + 1;
    uint32_t next = slot.entry.next;
    counts.mispredicted++;
    redirect(number, next);
    owe(Order::Kind::Set, number, next);
}

void InOrderTimingSide::issue_phase() {
    auto place = in(Place::Decode);
    if (!place || in(Place::Execute)) return;
    Slot& slot = window_[*place];
    const Instruction& instruction = slot.entry.instruction;
    bool is_oldest = *place == 0;
    if (cycle <= slot.since || !has_value(*place, instruction.first_source) ||
        !has_value(*place, instruction.second_source))
        return;
    if (is_oldest && slot.entry.is_unserved) return replay();
    bool is_device_load = instruction.unit == Class::Load && slot.entry.spot == Spot::Device;
    if (!is_oldest && (instruction.unit == Class::Serial || is_device_load)) return;
    slot.place = Place::Execute;
    slot.stage = Stage::Executing;
    slot.wait = wait_in_execute(instruction.unit);
}

// From Memory on a slot forwards its value, but a load not before Write.
bool InOrderTimingSide::has_value(size_t place, uint8_t source) const {
    if (source == 0) return true;
    while (place-- > 0) {
        const Slot& older = window_[place];
        if (!older.writes(source)) continue;
        bool is_load = older.entry.instruction.unit == Class::Load;
        return !older.entry.has_cause() &&
               (older.place == Place::Write || (older.place == Place::Memory && !is_load));
    }
    return true;
}

uint64_t InOrderTimingSide::wait_in_execute(Class unit) const {
    switch (unit) {
        case Class::Mul: return parameters.mul_latency - 1;
        case Class::Div: return parameters.div_latency - 1;
        case Class::Load:
        case Class::Store: return 0;
        default: return parameters.alu_latency - 1;
    }
}
