// The pipeline trace that the viewer Konata reads (Kanata log format, version 0004).
// Definitions: crates/insight_model/specs/Cell.antt, Trace.antt.
#pragma once

#include <string>
#include <vector>

#include "insight/facts.h"

class Trace {
public:
    // A trace from a state on, whose window is introduced in the cycle before.
    Trace(PipelineKind kind, const Parameters& parameters, const Sight& first);

    // Goes on over a cycle.
    void learn(const Facts& facts);

    // The last line, of the time at which the trace ends.
    void close(uint64_t cycle) { tell_time(cycle); }

    // What was written since it was taken last, and its length.
    std::string take_text();
    size_t length() const { return text_.size(); }

private:
    // What the file has told of a record of the window.
    struct Mark {
        uint64_t number;
        char cell;
    };

    PipelineKind kind_;
    const Parameters& parameters_;
    std::vector<Mark> marks_;
    std::vector<uint64_t> misses_;  // the cycles that the miss of each record adds
    uint64_t introduced_ = 0;       // how many records were
    uint64_t time_;                 // the cycle of the line before
    std::string text_;

    char cell(const Shown& shown, uint64_t miss, uint64_t cycle) const;
    void tell_time(uint64_t cycle);
    void note(const Mark& mark, const std::string& text);
    void introduce(const Shown& shown, uint64_t place, uint64_t cycle);
    void note_misprediction(const Mark& mark, const Shown& shown);
    void tell_left(const Facts& facts);
    void tell_squashed(const Facts& facts);
    void tell_kept(const Facts& facts, const std::vector<uint64_t>& misses);
    void tell_appended(const Facts& facts);
    void tell_producers(const Facts& facts, size_t place);
};
