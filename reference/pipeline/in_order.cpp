#include "pipeline/in_order.h"

void InOrder::make_cycle() {
    interrupt_phase();
    write_phase();
    if (ending.is_running()) {
        memory_phase();
        execute_phase();
        issue_phase();
        fetch_phase();
    }
    end_cycle();
}

void InOrder::flush_up_to(Place place, uint32_t address) {
    for (size_t k = 0; k <= (size_t)place; k++) {
        counts.squashed += stages_[k].has_value();
        stages_[k].reset();
    }
    redirect_fetch(address);
}

void InOrder::interrupt_phase() {
    if (!state.take_interrupt(cycle)) return;
    flush_up_to(Place::Write, state.pc);
    kept_time_.reset();
    counts.interrupts++;
}

void InOrder::write_phase() {
    if (!at(Place::Write)) return;
    Leaving leaving = commit_oldest(*at(Place::Write));
    if (leaving == Leaving::Full) return;
    at(Place::Write).reset();
    if (leaving == Leaving::Faults || leaving == Leaving::Synchronises)
        flush_up_to(Place::Memory, state.pc);
}

void InOrder::memory_phase() {
    if (!at(Place::Memory)) return;
    if (at(Place::Memory)->wait == 0)
        move(Place::Memory, Place::Write);
    else
        at(Place::Memory)->wait--;
}

// A load or store stays in Memory for its latency, and a load for its miss too.
void InOrder::execute_phase() {
    if (!at(Place::Execute)) return;
    if (at(Place::Execute)->wait > 0) {
        at(Place::Execute)->wait--;
        return;
    }
    if (at(Place::Memory)) return;
    move(Place::Execute, Place::Memory);
    Record& moved = *at(Place::Memory);
    bool is_transfer =
        moved.instruction.unit == Class::Load || moved.instruction.unit == Class::Store;
    moved.wait = is_transfer ? parameters.mem_latency - 1 : 0;
    if (moved.accesses_ram(Reach::Load)) moved.wait += load_line(moved);
    if (moved.is_mispredicted()) {
        count_misprediction(moved);
        flush_up_to(Place::Decode, moved.next);
    }
}

void InOrder::issue_phase() {
    const auto& decoded = at(Place::Decode);
    if (!decoded || at(Place::Execute) || cycle <= decoded->since) return;
    if (begin()) move(Place::Decode, Place::Execute);
}

// The value of a source of the record in Decode, forwarded from Memory and Write, if there is one.
std::optional<uint32_t> InOrder::operand(uint8_t source) const {
    if (source == 0) return 0;
    auto writes = [&](Place place) {
        return in(place) && in(place)->instruction.destination == source;
    };
    if (writes(Place::Execute)) return std::nullopt;
    if (writes(Place::Memory)) {
        const Record& older = *in(Place::Memory);
        if (older.has_cause() || older.instruction.unit == Class::Load) return std::nullopt;
        return older.value;
    }
    if (writes(Place::Write)) {
        const Record& older = *in(Place::Write);
        if (older.has_cause()) return std::nullopt;
        return older.value;
    }
    return state.registers[source];
}

// Whether the record in Decode has what it needs; it then has its result.
bool InOrder::begin() {
    Record& decoded = *at(Place::Decode);
    const Instruction& instruction = decoded.instruction;
    auto first = operand(instruction.first_source), second = operand(instruction.second_source);
    if (!first || !second) return false;
    decoded.wait = wait_in_execute(instruction.unit);
    if (instruction.operation == Operation::Illegal) {
        decoded.next = decoded.address + 4;
        return true;
    }
    Outcome outcome = evaluate(instruction, decoded.address, *first, *second);
    bool is_oldest = !in(Place::Memory) && !in(Place::Write);
    if (is_oldest && wants_time(decoded, outcome)) {
        keep_time();
        flush_up_to(Place::Write, decoded.address);
        return false;
    }
    bool is_device_load =
        outcome.reach == Reach::Load && memory.spot(outcome.address, outcome.width) == Spot::Device;
    if (!is_oldest && (instruction.unit == Class::Serial || is_device_load)) return false;
    execute(decoded, *first, outcome, [&] { return loaded_bytes(outcome.address, outcome.width); });
    return true;
}

uint64_t InOrder::wait_in_execute(Class unit) const {
    switch (unit) {
        case Class::Mul: return parameters.mul_latency - 1;
        case Class::Div: return parameters.div_latency - 1;
        case Class::Load:
        case Class::Store: return 0;
        default: return parameters.alu_latency - 1;
    }
}

void InOrder::fetch_phase() {
    if (cycle < resume || at(Place::Decode)) return;
    Record fetched;
    if (try_fetch(fetched)) at(Place::Decode) = fetched;
}

uint32_t InOrder::loaded_bytes(uint32_t address, uint8_t width) const {
    uint32_t value = memory.load(address, width);
    for (Place place : {Place::Write, Place::Memory}) {
        const auto& older = in(place);
        if (!older || !older->accesses_ram(Reach::Store)) continue;
        for (uint32_t k = 0; k < width; k++) {
            uint32_t offset = address + k - older->access_address;
            if (offset >= older->width) continue;
            value &= ~(0xFFu << 8 * k);
            value |= (older->stored >> 8 * offset & 0xFF) << 8 * k;
        }
    }
    return value;
}
