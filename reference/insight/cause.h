// What a cycle is charged to: a cause and an address.
// Definition: crates/insight_model/specs/Cause.antt.
#pragma once

#include <cstdint>

// In the order in which they are written.
enum class CycleCause : uint8_t {
    Commit,
    Alu,
    Mul,
    Div,
    Load,
    Store,
    Device,
    Serial,
    Operand,
    Dcache,
    Icache,
    Window,
    Stations,
    Mispredict,
    Trap,
    Interrupt,
    Replay,
    Fence,
    Start,
};
constexpr unsigned cause_count = 19;

inline const char* cause_name(CycleCause cause) {
    static const char* const names[cause_count] = {
        "commit", "alu",       "mul",    "div",    "load",   "store",    "device",
        "serial", "operand",   "dcache", "icache", "window", "stations", "mispredict",
        "trap",   "interrupt", "replay", "fence",  "start",
    };
    return names[(unsigned)cause];
}

struct Charge {
    CycleCause cause = CycleCause::Start;
    uint32_t address = 0;
};
