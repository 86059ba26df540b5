// What is seen of a state of either machine: no values, registers or caches.
// Definitions: crates/insight_model/specs/Sight.antt, OfState.antt.
#pragma once

#include <optional>
#include <vector>

#include "pipeline/in_order.h"
#include "pipeline/monolithic.h"

// How far an instruction has come. In order: Decode, Execute, Memory, Write; in a window nothing
// stands in Memory.
enum class Progress : uint8_t { Waiting, Executing, Accessing, Done };

// An instruction under way.
struct Shown {
    uint32_t address = 0, word = 0, predicted = 0;
    Instruction instruction;
    bool is_fetchable = false;
    uint64_t since = 0;  // the cycle in which it was fetched
    Progress progress = Progress::Waiting;
    uint64_t until = 0;  // while it executes or stands in Memory

    // What it came to, once it has begun.
    uint32_t next = 0;
    Reach access = Reach::Nothing;
    Spot spot = Spot::Nowhere;
    uint32_t access_address = 0;
    Cause cause = Cause::None;

    bool has_cause() const { return cause != Cause::None; }
    bool accesses_ram(Reach reach) const {
        return progress != Progress::Waiting && access == reach && spot == Spot::Ram &&
               !has_cause();
    }
    bool is_fence_i() const { return instruction.operation == Operation::FenceI; }
    bool writes(uint8_t source) const { return source && instruction.destination == source; }

    // Younger ones have its value once it is done; in order from Memory on, but of a load not
    // before Write.
    bool gives_value() const {
        bool is_forwarded = progress == Progress::Accessing && instruction.unit != Class::Load;
        return !has_cause() && (progress == Progress::Done || is_forwarded);
    }
};

struct Sight {
    uint64_t cycle = 0, retired = 0;
    Counts counts;
    End end = End::Running;
    uint64_t resume = 0;              // the cycle from which on fetch goes on after a miss
    std::optional<uint32_t> missing;  // the address to fetch next, if its miss was counted
    std::vector<Shown> window;        // the oldest first

    // How many instructions have left.
    uint64_t departed() const { return retired + counts.exceptions; }
};

// Sights are made anew in the same place, so that their windows needn't be allocated again.
void see(const Monolithic& machine, Sight& sight);
void see(const InOrder& machine, Sight& sight);
