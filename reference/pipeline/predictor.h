// The branch predictor. Definition: crates/branch_predictor/specs/Predictor.antt.
#pragma once

#include <cstdint>
#include <vector>

#include "files/machine_file.h"
#include "hart/instruction.h"

class Predictor {
public:
    explicit Predictor(const Parameters& parameters)
        : is_static_(parameters.predictor_kind == 0),
          has_history_(parameters.predictor_kind == 2),
          history_mask_((1u << parameters.predictor_history) - 1),
          counter_mask_(parameters.predictor_counters - 1),
          target_mask_(parameters.predictor_targets - 1),
          counters_(parameters.predictor_counters, 1),
          targets_(parameters.predictor_targets) {}

    // The address that is predicted to follow the instruction at an address.
    uint32_t predict(uint32_t address) const {
        if (targets_.empty()) return address + 4;
        const Target& target = targets_[target_place(address)];
        if (target.flow == Flow::Plain || target.address != address) return address + 4;
        bool is_taken =
            target.flow == Flow::Jump || (!is_static_ && counters_[counter_place(address)] >= 2);
        return is_taken ? target.goes_to : address + 4;
    }

    // Learns where an instruction went, once it retires.
    void train(uint32_t address, Flow flow, uint32_t next) {
        if (flow == Flow::Plain) return;
        bool is_taken = flow == Flow::Jump || next != address + 4;
        if (flow == Flow::Branch) {
            uint8_t& counter = counters_[counter_place(address)];
            if (is_taken && counter < 3) counter++;
            if (!is_taken && counter > 0) counter--;
            outcomes_ = (outcomes_ << 1 | (is_taken ? 1 : 0)) & history_mask_;
        }
        if (is_taken && !targets_.empty())
            targets_[target_place(address)] = Target{address, next, flow};
    }

private:
    struct Target {
        uint32_t address = 0, goes_to = 0;
        Flow flow = Flow::Plain;  // of an empty place
    };

    bool is_static_, has_history_;
    uint32_t history_mask_, counter_mask_, target_mask_;
    uint32_t outcomes_ = 0;  // of the last branches, the last one lowest
    std::vector<uint8_t> counters_;
    std::vector<Target> targets_;

    size_t counter_place(uint32_t address) const {
        uint32_t place = has_history_ ? address / 4 ^ outcomes_ : address / 4;
        return place & counter_mask_;
    }
    size_t target_place(uint32_t address) const { return address / 4 & target_mask_; }
};
