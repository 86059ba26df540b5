// The in-order machine: Fetch, Decode, Execute, Memory, Write.
// Definitions: crates/lane_model/specs/Lane.antt, Write.antt, Memory.antt, Execute.antt,
// Issue.antt, Fetch.antt, Cycle.antt.
#pragma once

#include <array>
#include <optional>

#include "pipeline/pipeline.h"

// The stages in which a record may stand.
enum class Place : uint8_t { Decode, Execute, Memory, Write };

// The setup under which it runs: its window has a record for each stage behind Fetch.
// Definition: crates/fast_jobs/specs/Stages.antt (inorder_setup).
inline Setup in_order_setup(Setup setup) {
    setup.parameters.core_window = 4;
    return setup;
}

class InOrder : public Pipeline {
public:
    explicit InOrder(const Setup& setup) : Pipeline(setup) {}

    void make_cycle();
    // Goes on to a cycle, or to the end.
    void run_until(uint64_t goal) {
        while (ending.is_running() && cycle < goal)
            make_cycle();
    }
    void run() { run_until(~0ull); }

    // The record in a stage, if there is one.
    const std::optional<Record>& in(Place place) const { return stages_[(size_t)place]; }

private:
    std::array<std::optional<Record>, 4> stages_;

    std::optional<Record>& at(Place place) { return stages_[(size_t)place]; }
    void move(Place from, Place to) {
        at(to) = std::move(at(from));
        at(from).reset();
    }

    void interrupt_phase();
    void write_phase();
    void memory_phase();
    void execute_phase();
    void issue_phase();
    void fetch_phase();

    // Empties the stages up to one; fetch goes on at an address.
    void flush_up_to(Place place, uint32_t address);
    std::optional<uint32_t> operand(uint8_t source) const;
    bool begin();
    uint64_t wait_in_execute(Class unit) const;
    uint32_t loaded_bytes(uint32_t address, uint8_t width) const;
};
