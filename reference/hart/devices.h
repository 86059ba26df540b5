// Console, timer and finisher. Definitions: crates/device_bus/specs/Range.antt, Device.antt,
// Bus.antt.
#pragma once

#include <cstdint>
#include <optional>
#include <string>

#include "hart/cause.h"

constexpr uint32_t console_base = 0x10000000u, console_size = 256;
constexpr uint32_t timer_base = 0x02000000u, timer_size = 65536;
constexpr uint32_t finisher_base = 0x00100000u, finisher_size = 4096;

enum class Device : uint8_t { Console, Timer, Finisher };

// The device in whose range an address lies.
inline std::optional<Device> device_at(uint32_t address) {
    if (address - console_base < console_size) return Device::Console;
    if (address - timer_base < timer_size) return Device::Timer;
    if (address - finisher_base < finisher_size) return Device::Finisher;
    return std::nullopt;
}

// The timer takes words alone.
inline bool accepts(Device device, uint8_t width) {
    return device != Device::Timer || width == 4;
}

// A load of one of the two words of the time.
inline bool is_time_address(uint32_t address, uint8_t width) {
    return width == 4 && (address == timer_base + 0xBFF8 || address == timer_base + 0xBFFC);
}

// What a store does outside its device: it sends a byte, or ends the run.
struct Note {
    std::optional<uint8_t> sent;
    Halt halt = Halt::None;
    uint16_t code = 0;
};

struct Devices {
    uint32_t line_control = 0;  // of the console
    uint32_t taken = 0;         // how many bytes of the input were taken
    uint32_t compare_low = 0xFFFFFFFFu, compare_high = 0xFFFFFFFFu;

    uint64_t compare() const { return (uint64_t)compare_high << 32 | compare_low; }
    bool operator==(const Devices& other) const;

    // What a load gives, and whether it takes a byte of the input.
    uint32_t look(const std::string& input, uint32_t address, uint64_t time, bool& takes) const;

    // The same, and the byte is taken.
    uint32_t load(const std::string& input, uint32_t address, uint64_t time);

    Note store(uint32_t address, uint8_t width, uint32_t value);

    // A store at an address would send a byte.
    bool would_send(uint32_t address) const {
        return address == console_base && !selects_divisor();
    }

private:
    // The bit DLAB of the line control register, which hides the data register.
    bool selects_divisor() const { return line_control >> 7 & 1; }
};
