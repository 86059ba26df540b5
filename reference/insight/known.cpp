#include "insight/known.h"

#include <algorithm>

namespace {

// The cause of an instruction's class; a load of a device has its own.
CycleCause class_cause(const Shown& shown) {
    switch (shown.instruction.unit) {
        case Class::Mul: return CycleCause::Mul;
        case Class::Div: return CycleCause::Div;
        case Class::Load: {
            bool is_device = shown.access == Reach::Load && shown.spot == Spot::Device;
            return is_device ? CycleCause::Device : CycleCause::Load;
        }
        case Class::Store: return CycleCause::Store;
        case Class::Serial: return CycleCause::Serial;
        default: return CycleCause::Alu;
    }
}

bool is_in(const std::vector<Shown>& window, Progress stage) {
    return std::any_of(window.begin(), window.end(),
                       [&](const Shown& shown) { return shown.progress == stage; });
}

// The youngest older record that writes a source gives no value yet.
bool is_withheld(const std::vector<Shown>& window, size_t place, uint8_t source) {
    while (place-- > 0)
        if (window[place].writes(source)) return !window[place].gives_value();
    return false;
}

// In Decode: for a source without a value, else to be the oldest.
CycleCause decode_cause(const std::vector<Shown>& window, size_t place) {
    const Instruction& instruction = window[place].instruction;
    if (is_withheld(window, place, instruction.first_source) ||
        is_withheld(window, place, instruction.second_source))
        return CycleCause::Operand;
    return instruction.unit == Class::Serial ? CycleCause::Serial : CycleCause::Device;
}

}  // namespace

FetchEnd fetch_end(PipelineKind kind, const Parameters& parameters, const Facts& facts) {
    bool is_window = kind == PipelineKind::Window;
    if (facts.stopped) return FetchEnd::Ended;
    if (facts.missed || facts.waited) return FetchEnd::Icache;
    if (facts.appended == (is_window ? parameters.core_fetch : 1)) return FetchEnd::Width;
    if (facts.appended > 0) {
        const Shown& last = facts.after.window.back();
        if (last.predicted != last.address + 4) return FetchEnd::Taken;
    }
    bool is_full = !is_window || facts.after.window.size() == parameters.core_window;
    return is_full ? FetchEnd::Window : FetchEnd::Stations;
}

Known::Known(PipelineKind kind, const Setup& setup) : kind_(kind), parameters_(setup.parameters) {
    holes_.fill(Charge{CycleCause::Start, setup.image.entry});
}

// ---- the head of a cycle

Charge Known::head(const Facts& facts) const {
    if (facts.interrupted) return Charge{CycleCause::Interrupt, facts.fetch_at};
    if (kind_ == PipelineKind::Window) return window_head(facts);
    const auto& window = facts.before.window;
    bool is_done = !window.empty() && window[0].progress == Progress::Done;
    return is_done ? Charge{CycleCause::Commit, window[0].address} : holes_[(size_t)Progress::Done];
}

// A record that can't be done yet, however fast it is, was fetched late.
Charge Known::window_head(const Facts& facts) const {
    if (facts.before.window.empty()) {
        bool is_first = facts.cycle() == 0;
        return Charge{is_first ? CycleCause::Start : CycleCause::Icache, facts.fetch_at};
    }
    const Shown& oldest = facts.before.window[0];
    if (oldest.progress == Progress::Done) return Charge{CycleCause::Commit, oldest.address};
    if (facts.replayed) return Charge{CycleCause::Replay, oldest.address};
    if (facts.cycle() < oldest.since + parameters_.core_front + 2) return origins_[0];
    return Charge{unit_cause(facts), oldest.address};
}

// The access of the oldest one is seen after the cycle at the latest.
CycleCause Known::unit_cause(const Facts& facts) const {
    const Shown& oldest = facts.before.window[0];
    bool would_be_done =
        oldest.progress == Progress::Executing && oldest.until - misses_[0] < facts.cycle();
    if (would_be_done) return CycleCause::Dcache;
    return class_cause(facts.kept > 0 ? facts.kept_after(0) : oldest);
}

// ---- from cycle to cycle

void Known::learn(const Facts& facts) {
    if (kind_ == PipelineKind::InOrder && !facts.stopped) learn_holes(facts);
    learn_origins(facts);
    misses_ = misses_after(kind_, parameters_, facts, misses_);
}

void Known::learn_origins(const Facts& facts) {
    if (facts.flush) refill_ = facts.flush;
    std::vector<Charge> origins(origins_.begin() + facts.left,
                                origins_.begin() + facts.left + facts.kept);
    for (size_t place = 0; place < facts.appended; place++)
        origins.push_back(place == 0 && refill_ ? *refill_ : new_origin(facts, place));
    if (facts.appended > 0) refill_.reset();
    origins_ = origins;
}

// Without a flush: the first one of a run, one that waited for its miss, or one for which there was
// no room.
Charge Known::new_origin(const Facts& facts, size_t place) const {
    uint32_t address = facts.appended_at(place).address;
    bool is_first = place == 0 && facts.before.counts.fetched == 0;
    if (is_first) return Charge{CycleCause::Start, address};
    if (place == 0 && facts.paid) return Charge{CycleCause::Icache, address};
    bool was_full = facts.before.window.size() == parameters_.core_window;
    return Charge{was_full ? CycleCause::Window : CycleCause::Stations, address};
}

// A flush empties stages: an interrupt all of them, a trap or FENCE.I those before Write, any other
// Decode.
void Known::flush_holes(const Charge& flush) {
    bool is_trap = flush.cause == CycleCause::Trap || flush.cause == CycleCause::Fence;
    size_t count = flush.cause == CycleCause::Interrupt ? 4 : is_trap ? 3 : 1;
    std::fill_n(holes_.begin(), count, flush);
}

// A stage that is empty after the cycle has the hole of the stage before it, or one that a record
// makes by staying there.
void Known::learn_holes(const Facts& facts) {
    if (facts.flush) flush_holes(*facts.flush);
    for (size_t stage = 3; stage > 0; stage--) {
        if (is_in(facts.after.window, (Progress)stage)) continue;
        auto stall = stall_in(facts, (Progress)(stage - 1));
        holes_[stage] = stall ? *stall : holes_[stage - 1];
    }
    if (!is_in(facts.after.window, Progress::Waiting))
        holes_[0] = Charge{CycleCause::Icache, facts.fetch_at};
}

// What a record holds up by staying in a stage, if one does.
std::optional<Charge> Known::stall_in(const Facts& facts, Progress stage) const {
    for (size_t place = 0; place < facts.kept; place++) {
        const Shown &before = facts.kept_before(place), &after = facts.kept_after(place);
        if (before.progress != stage || after.progress != stage) continue;
        CycleCause cause = class_cause(after);
        if (stage == Progress::Waiting) cause = decode_cause(facts.after.window, place);
        // By its miss, as long as it would be gone by now without it.
        if (stage == Progress::Accessing &&
            before.until - facts.cycle() <= misses_[facts.left + place])
            cause = CycleCause::Dcache;
        return Charge{cause, after.address};
    }
    return std::nullopt;
}
