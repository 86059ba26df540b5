// What the cycles of a run were spent on: the stack, sums over the run, and the profile, rows by
// address. Definitions: crates/insight_model/specs/Stack.antt, Profile.antt, Accesses.antt.
#pragma once

#include <array>

#include "insight/known.h"
#include "insight/rows.h"

class Profile {
public:
    Profile(PipelineKind kind, const Setup& setup, const Memory& memory)
        : rows(memory),
          kind_(kind),
          setup_(setup),
          known_(kind, setup),
          caches_(setup.parameters) {}

    Rows rows;

    // Goes on over a cycle.
    void learn(const Facts& facts);

    std::string stack_text() const;

    // Ends the program where the sums of a run aren't those that the machine counted.
    void check(const Pipeline& machine, const Sight& last, const PhaseWitness& witness);

private:
    static constexpr unsigned most_leaving = 8;

    PipelineKind kind_;
    const Setup& setup_;
    Known known_;
    Caches caches_;  // that make the same accesses again
    std::array<uint64_t, cause_count> heads_{};
    std::array<uint64_t, fetch_end_count> fetch_ends_{};
    std::array<uint64_t, most_leaving + 1> leaving_{};  // cycles, by how many records left
    uint64_t occupied_ = 0, waiting_ = 0;
    size_t last_left_ = 0;

    void count_events(const Facts& facts);
    void count_accesses(const Facts& facts);
    template <class Access>
    void count_access(uint32_t address, Access access);
    void check_rows(const Sight& last);
    void check_stack(const Pipeline& machine) const;
    void check_witness(const PhaseWitness& witness, const Memory& memory);
};
