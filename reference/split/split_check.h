// A split machine in random events, held against the machine that isn't split.
#pragma once

#include <cinttypes>

#include "base/text.h"
#include "files/soak.h"
#include "hart/report.h"
#include "split/split.h"

// The report and memory of the whole machine at the cycle that the settled split one has reached.
template <class Machine>
void compare_settled(const Split& split, const Machine& machine) {
    bool is_same = machine.cycle == split.timing->cycle &&
                   run_text(machine.final(), machine.state) ==
                       run_text(split.final(), split.functional.state) &&
                   machine.memory.has_same_ram(split.functional.memory);
    if (!is_same) internal_fault("the split machine differs at cycle %" PRIu64, machine.cycle);
}

template <class Machine>
class SplitCheck {
public:
    SplitCheck(Split& split, const Setup& setup, uint64_t seed)
        : split_(split), machine_(setup), draws_(seed, 77) {}

    // Plays random events to the end, and compares as it goes.
    void play_to_end() {
        while (!split_.is_over())
            play_stretch();
    }

private:
    Split& split_;
    Machine machine_;
    Draws draws_;
    std::optional<uint64_t> compared_cycle_;
    uint64_t compared_states_ = 0;

    // Events of one distribution: some kinds come up to 64 times as often as others.
    void play_stretch() {
        uint32_t weights[6], sum = 0;
        for (uint32_t& weight : weights) {
            uint32_t draw = draws_.below(6);
            weight = draw == 0 ? 1 : draw < 4 ? 8 : 64;
            sum += weight;
        }
        uint32_t length = 1 + draws_.below(400);
        for (uint32_t k = 0; k < length && !split_.is_over(); k++) {
            uint32_t draw = draws_.below(sum), kind = 0;
            while (draw >= weights[kind])
                draw -= weights[kind++];
            split_.play(round_of_events[kind]);
            compare();
        }
    }

    void compare() {
        const TimingSide& timing = *split_.timing;
        if (!timing.is_at_boundary()) return;
        if (compared_cycle_ != timing.cycle) compare_counts();
        if (split_.is_at_boundary() && timing.cycle == machine_.cycle && draws_.below(16) == 0)
            compare_states();
    }

    void compare_counts() {
        const TimingSide& timing = *split_.timing;
        compared_cycle_ = timing.cycle;
        machine_.run_until(timing.cycle);
        bool is_same = machine_.cycle == timing.cycle && machine_.counts == timing.counts &&
                       machine_.caches.counts == timing.caches.counts &&
                       machine_.ending == timing.ending &&
                       machine_.state.csrs.retired == timing.retired &&
                       machine_.state.output.size() == timing.sent;
        if (!is_same) internal_fault("counts differ at cycle %" PRIu64, timing.cycle);
    }

    // Goes back to what is committed, compares, and makes again what was taken back.
    void compare_states() {
        FunctionalSide& side = split_.functional;
        uint64_t position = side.position(), to_commit = split_.timing->to_commit();
        std::deque<uint32_t> addresses;
        while (side.position() > to_commit) {
            addresses.push_front(side.state.pc);
            side.go_to(side.position() - 1);
        }
        if (side.position() != to_commit || !(side.state == machine_.state))
            internal_fault("committed states differ at cycle %" PRIu64, machine_.cycle);
        bool is_same = compared_states_++ % 64 != 0 || (side.memory.has_same_ram(machine_.memory) &&
                                                        side.memory.has_same_text(machine_.memory));
        if (!is_same) internal_fault("memory differs at cycle %" PRIu64, machine_.cycle);
        for (uint32_t address : addresses) {
            side.produce();
            side.state.pc = address;
        }
        if (side.position() != position) internal_fault("the position differs");
    }
};
