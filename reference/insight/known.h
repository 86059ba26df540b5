// What is known of the records in the window as a cycle begins, and on what the cycle was spent.
// Definitions: crates/insight_model/specs/Origin.antt, Hole.antt, Head.antt, Fetch.antt.
#pragma once

#include <array>
#include <vector>

#include "insight/facts.h"

// Why fetch ended in a cycle, in the order in which it is written.
enum class FetchEnd : uint8_t { Width, Taken, Window, Stations, Icache, Ended };
constexpr unsigned fetch_end_count = 6;

inline const char* fetch_end_name(FetchEnd end) {
    static const char* const names[] = {"width", "taken", "window", "stations", "icache", "ended"};
    return names[(unsigned)end];
}

FetchEnd fetch_end(PipelineKind kind, const Parameters& parameters, const Facts& facts);

class Known {
public:
    Known(PipelineKind kind, const Setup& setup);

    // What a cycle is charged to.
    Charge head(const Facts& facts) const;

    // Goes on over a cycle.
    void learn(const Facts& facts);

private:
    PipelineKind kind_;
    const Parameters& parameters_;
    // Of each record of the window: the cycles that its miss adds, and why it wasn't fetched
    // earlier.
    std::vector<uint64_t> misses_;
    std::vector<Charge> origins_;
    std::optional<Charge> refill_;  // the newest flush, if nothing was appended after it yet
    // In order, of each stage: why it is empty, if it is.
    std::array<Charge, 4> holes_;

    Charge window_head(const Facts& facts) const;
    CycleCause unit_cause(const Facts& facts) const;
    void learn_origins(const Facts& facts);
    Charge new_origin(const Facts& facts, size_t place) const;
    void learn_holes(const Facts& facts);
    void flush_holes(const Charge& flush);
    std::optional<Charge> stall_in(const Facts& facts, Progress stage) const;
};
