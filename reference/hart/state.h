// What a run depends on, the architectural state, and what is counted and reported of a run.
// Definitions: crates/mono_model/specs/Setup.antt, Arch.antt, Final.antt.
#pragma once

#include <cstdint>
#include <string>

#include "files/image.h"
#include "files/machine_file.h"
#include "hart/csrs.h"
#include "hart/devices.h"
#include "pipeline/caches.h"

struct Setup {
    Image image;
    Parameters parameters;
    std::string input;
    uint64_t cycles = 10000000;  // of a run without a pipeline: steps
    uint64_t output = 16777216;  // for how many bytes of output there is room
    uint32_t ring = 64;          // entries under way between the two sides of the split machine
};

// The architectural state but for memory, which is kept apart.
struct State {
    uint32_t registers[32] = {0};
    uint32_t pc = 0;
    Csrs csrs;
    Devices devices;
    std::string output;

    bool operator==(const State& other) const;

    // Takes a pending timer interrupt before the next instruction.
    bool take_interrupt(uint64_t time) {
        if (!csrs.timer_is_pending(time, devices.compare())) return false;
        pc = csrs.enter_trap(timer_interrupt, pc, 0);
        return true;
    }
};

enum class End : uint8_t { Running, Pass, Fail, Limit, OutputFull };

// How a run stands: whether and how it has ended.
struct Ending {
    End end = End::Running;
    uint16_t code = 0;

    bool is_running() const { return end == End::Running; }
    bool operator==(const Ending& other) const { return end == other.end && code == other.code; }
    std::string text() const;
    int exit_status() const;
};

Ending ending_of(Halt halt, uint16_t code);

// What the phases of a pipeline count.
struct Counts {
    uint64_t exceptions = 0, interrupts = 0, replays = 0, fetched = 0, squashed = 0, branches = 0,
             mispredicted = 0;

    bool operator==(const Counts& other) const;
};

// What is reported of a run beside its state.
struct Final {
    Ending ending;
    uint64_t cycles = 0;
    Counts counts;
    CacheCounts caches;
    uint32_t version = 1;  // of the machine file
    bool has_pipeline = true;
};
