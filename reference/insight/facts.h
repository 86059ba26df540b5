// What a cycle did, told by what is seen before and after it.
// Definition: crates/insight_model/specs/Facts.antt.
#pragma once

#include "insight/cause.h"
#include "insight/sight.h"

// Which machine, since the two differ in some of what follows.
enum class PipelineKind { Window, InOrder };

struct Facts {
    Facts(const Sight& before, const Sight& after);

    const Sight &before, &after;
    // Of the window before the cycle: first those that left, then those that stayed, and last those
    // that were squashed. Of the window after it: those that stayed, and those that were appended.
    size_t left, kept, squashed, appended;
    bool trapped, interrupted, replayed;
    std::optional<size_t> mispredicted;  // its place in the window before
    std::optional<Charge> flush;         // what flushed, and what that is charged to
    uint32_t fetch_at;                   // where fetch stands, or has begun
    bool paid;                           // the first one appended was waited for
    std::optional<uint32_t> missed;      // where a miss began
    bool waited;                         // fetch waited for a miss that began before
    bool stopped;                        // the run ended before fetch

    uint64_t cycle() const { return before.cycle; }
    const Shown& left_at(size_t place) const { return before.window[place]; }
    const Shown& kept_before(size_t place) const { return before.window[left + place]; }
    const Shown& kept_after(size_t place) const { return after.window[place]; }
    const Shown& squashed_at(size_t place) const { return before.window[left + kept + place]; }
    const Shown& appended_at(size_t place) const { return after.window[kept + place]; }
    // One that left retired, unless it is the last and trapped.
    size_t retired() const { return trapped ? left - 1 : left; }

    // A record that stayed began to execute.
    bool has_begun(size_t place) const {
        return kept_before(place).progress == Progress::Waiting &&
               kept_after(place).progress == Progress::Executing;
    }
    // It is a load that accesses the data cache in this cycle.
    bool makes_load(PipelineKind kind, size_t place) const;
};

// How many cycles the misses of loads add, for each record of the window; by those before the
// cycle. Definition: crates/insight_model/specs/Accesses.antt.
std::vector<uint64_t> misses_after(PipelineKind kind, const Parameters& parameters,
                                   const Facts& facts, const std::vector<uint64_t>& misses);
