#include "hart/devices.h"

bool Devices::operator==(const Devices& other) const {
    return line_control == other.line_control && taken == other.taken &&
           compare_low == other.compare_low && compare_high == other.compare_high;
}

uint32_t Devices::look(const std::string& input, uint32_t address, uint64_t time,
                       bool& takes) const {
    takes = false;
    bool has_input = taken < input.size();
    switch (address) {
        case console_base:
            takes = has_input && !selects_divisor();
            return takes ? (uint8_t)input[taken] : 0;
        case console_base + 3: return line_control;
        case console_base + 5: return 0x60 + (has_input ? 1 : 0);
        case timer_base + 0x4000: return compare_low;
        case timer_base + 0x4004: return compare_high;
        case timer_base + 0xBFF8: return (uint32_t)time;
        case timer_base + 0xBFFC: return (uint32_t)(time >> 32);
        default: return 0;
    }
}

uint32_t Devices::load(const std::string& input, uint32_t address, uint64_t time) {
    bool takes;
    uint32_t value = look(input, address, time, takes);
    taken += takes;
    return value;
}

Note Devices::store(uint32_t address, uint8_t width, uint32_t value) {
    Note note;
    switch (address) {
        case console_base:
            if (!selects_divisor()) note.sent = (uint8_t)value;
            break;
        case console_base + 3: line_control = value & 0xFF; break;
        case timer_base + 0x4000: compare_low = value; break;
        case timer_base + 0x4004: compare_high = value; break;
        case finisher_base:
            if (width != 4) break;
            if (value == 0x5555) note.halt = Halt::Pass;
            if ((value & 0xFFFF) == 0x3333) {
                note.halt = Halt::Fail;
                note.code = (uint16_t)(value >> 16);
            }
            break;
    }
    return note;
}
