#include "debugger/gdb_positions.h"

namespace {

State found_by(const Walk& walk) {
    State found = walk.state;
    if (walk.is_going()) found.take_interrupt(walk.position);
    return found;
}

// The numbers of gdb's registers: x0 to x31, pc, and from 65 on the CSRs by their addresses.
constexpr uint64_t pc_number = 32, first_csr_number = 65, csr_count = 4096;

}  // namespace

Positions::Positions(const Setup& setup)
    : setup_(setup), front_(setup), walk_(std::make_unique<Walk>(setup)) {}

const Position& Positions::at(uint64_t position) {
    while (positions_.size() <= position)
        lay_out_next();
    return positions_[position];
}

void Positions::lay_out_next() {
    Position next;
    next.next_address = found_by(front_).pc;
    UndoStep undo;
    auto entry = front_.step(undo);
    if (!entry) {
        next.end = front_.end();
    } else if (!entry->has_cause()) {
        next.access = entry->access;
        next.address = entry->access_address;
        next.width = entry->width;
        next.is_fence_i = entry->is_fence_i();
    }
    positions_.push_back(next);
}

const Walk& Positions::walk_to(uint64_t position) {
    if (walk_->position > position) walk_ = std::make_unique<Walk>(setup_);
    UndoStep undo;
    while (walk_->position < position)
        walk_->step(undo);
    return *walk_;
}

State Positions::found(uint64_t position) {
    return found_by(walk_to(position));
}

std::optional<uint32_t> Positions::register_value(uint64_t position, uint64_t number) {
    State state = found(position);
    if (number < 32) return state.registers[number];
    if (number == pc_number) return state.pc;
    if (number < first_csr_number || number >= first_csr_number + csr_count) return std::nullopt;
    return csr_value(state.csrs, (uint32_t)(number - first_csr_number), position,
                     state.devices.compare());
}

// Of memory, not of the text; of a device what a load would give, and it isn't touched.
std::optional<uint8_t> Positions::byte(uint64_t position, uint64_t wide_address) {
    if (wide_address > 0xFFFFFFFF) return std::nullopt;
    const Walk& walk = walk_to(position);
    uint32_t address = (uint32_t)wide_address;
    if (walk.memory.has(address)) return walk.memory.byte(address);
    auto device = device_at(address);
    if (!device) return std::nullopt;
    auto look = [&](uint32_t at) {
        bool takes;
        return walk.state.devices.look(setup_.input, at, position, takes);
    };
    switch (*device) {
        case Device::Console: return (uint8_t)look(address);
        case Device::Timer: return (uint8_t)(look(address & ~3u) >> 8 * (address & 3));
        default: return 0;
    }
}
