// Issue: records with operands and a unit begin to execute, the oldest first.
// Definition: crates/mono_model/specs/Issue.antt.
#include <algorithm>

#include "pipeline/monolithic.h"

bool Monolithic::issue_phase() {
    if (ready_count_ == 0) return false;
    Units units{parameters.alu_count, parameters.mul_count, parameters.div_count,
                parameters.mem_count};
    uint64_t barrier = first_unfinished_store();
    uint32_t kept = 0, place = 0;
    for (; place < ready_count_; place++) {
        uint64_t number = ready_[place];
        // No younger one has passed the front either.
        if (cycle < record(number).since + parameters.core_front) break;
        switch (issue_turn(number, units, barrier)) {
            case Turn::Replays: return true;
            case Turn::Begins: begin(number); break;
            case Turn::Passes: ready_[kept++] = number;
        }
    }
    bool moves = kept < place;
    while (place < ready_count_)
        ready_[kept++] = ready_[place++];
    ready_count_ = kept;
    return moves;
}

Monolithic::Turn Monolithic::issue_turn(uint64_t number, Units& units, uint64_t barrier) {
    Record& turning = record(number);
    const Instruction& instruction = turning.instruction;
    uint32_t* free_units = units_for(instruction.unit, units);
    bool is_oldest = number == oldest_;
    if (*free_units == 0) return Turn::Passes;
    if (instruction.unit == Class::Div && division_count_ >= parameters.div_count)
        return Turn::Passes;
    if (instruction.unit == Class::Serial && !is_oldest) return Turn::Passes;
    if (instruction.operation == Operation::Illegal) {
        turning.next = turning.address + 4;
    } else {
        uint32_t first = operand(turning.first_producer, instruction.first_source);
        uint32_t second = operand(turning.second_producer, instruction.second_source);
        Outcome outcome = evaluate(instruction, turning.address, first, second);
        if (!class_allows(number, outcome, barrier)) return Turn::Passes;
        if (is_oldest && wants_time(turning, outcome)) {
            keep_time();
            flush_from(oldest_, turning.address);
            return Turn::Replays;
        }
        execute(turning, first, outcome,
                [&] { return loaded_bytes(number, outcome.address, outcome.width); });
    }
    --*free_units;
    return Turn::Begins;
}

uint32_t* Monolithic::units_for(Class unit, Units& units) {
    switch (unit) {
        case Class::Mul: return &units.mul;
        case Class::Div: return &units.div;
        case Class::Load:
        case Class::Store: return &units.mem;
        default: return &units.alu;
    }
}

// A load of a device begins only as the oldest, any other load once all older stores are done.
bool Monolithic::class_allows(uint64_t number, const Outcome& outcome, uint64_t barrier) const {
    if (outcome.reach != Reach::Load) return true;
    bool is_device = memory.spot(outcome.address, outcome.width) == Spot::Device;
    return is_device ? number == oldest_ : barrier >= number;
}

uint64_t Monolithic::latency_of(const Record& record) {
    switch (record.instruction.unit) {
        case Class::Mul: return parameters.mul_latency;
        case Class::Div: return parameters.div_latency;
        case Class::Load:
            return parameters.mem_latency +
                   (record.accesses_ram(Reach::Load) ? load_line(record) : 0);
        case Class::Store: return parameters.mem_latency;
        default: return parameters.alu_latency;
    }
}

void Monolithic::begin(uint64_t number) {
    Record& beginning = record(number);
    waiting_count_--;
    if (beginning.instruction.unit == Class::Div) division_count_++;
    beginning.stage = Stage::Executing;
    beginning.until = cycle + latency_of(beginning);
    next_completion_ = std::min(next_completion_, beginning.until);
    executing_[executing_count_++] = number;
}

uint32_t Monolithic::operand(uint64_t producer, uint8_t source) const {
    return producer >= oldest_ ? record(producer).value : state.registers[source];
}

uint64_t Monolithic::first_unfinished_store() const {
    for (uint32_t place = first_store_; place != store_end_; place++)
        if (record(store(place)).stage != Stage::Done) return store(place);
    return ~0ull;
}

// Each byte is that of the youngest older store that covers it, else memory's.
uint32_t Monolithic::loaded_bytes(uint64_t number, uint32_t address, uint8_t width) const {
    uint32_t value = memory.load(address, width);
    for (uint32_t place = first_store_; place != store_end_ && store(place) < number; place++) {
        const Record& older = record(store(place));
        if (!older.accesses_ram(Reach::Store)) continue;
        for (uint32_t k = 0; k < width; k++) {
            uint32_t offset = address + k - older.access_address;
            if (offset >= older.width) continue;
            value &= ~(0xFFu << 8 * k);
            value |= (older.stored >> 8 * offset & 0xFF) << 8 * k;
        }
    }
    return value;
}
