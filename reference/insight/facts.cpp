#include "insight/facts.h"

#include <cinttypes>

#include "base/text.h"

namespace {

// Its latency is over, and it goes elsewhere than predicted.
bool redirects(const Shown& shown, uint64_t cycle) {
    return shown.progress == Progress::Executing && shown.until <= cycle && !shown.has_cause() &&
           shown.next != shown.predicted;
}

std::optional<size_t> mispredicted_place(const Facts& facts) {
    if (facts.before.counts.mispredicted == facts.after.counts.mispredicted) return std::nullopt;
    for (size_t place = facts.left; place < facts.before.window.size(); place++)
        if (redirects(facts.before.window[place], facts.cycle())) return place;
    internal_fault("no record was mispredicted in cycle %" PRIu64, facts.cycle());
}

std::optional<Charge> flush_of(const Facts& facts) {
    const auto& window = facts.before.window;
    if (facts.interrupted) return Charge{CycleCause::Interrupt, facts.fetch_at};
    if (facts.left > 0) {
        const Shown& last = window[facts.left - 1];
        if (facts.trapped) return Charge{CycleCause::Trap, last.address};
        if (last.is_fence_i()) return Charge{CycleCause::Fence, last.address};
    }
    if (facts.replayed) return Charge{CycleCause::Replay, window[facts.left].address};
    if (facts.mispredicted)
        return Charge{CycleCause::Mispredict, window[*facts.mispredicted].address};
    return std::nullopt;
}

}  // namespace

Facts::Facts(const Sight& before, const Sight& after) : before(before), after(after) {
    left = after.departed() - before.departed();
    appended = after.counts.fetched - before.counts.fetched;
    kept = after.window.size() - appended;
    squashed = before.window.size() - left - kept;
    if (squashed != after.counts.squashed - before.counts.squashed)
        internal_fault("the window doesn't show what was squashed in cycle %" PRIu64, cycle());
    trapped = after.counts.exceptions > before.counts.exceptions;
    interrupted = after.counts.interrupts > before.counts.interrupts;
    replayed = after.counts.replays > before.counts.replays;
    mispredicted = mispredicted_place(*this);
    fetch_at = appended > 0 ? appended_at(0).address : after.missing.value_or(0);
    flush = flush_of(*this);
    paid = before.missing && !flush;
    if (appended > 0 || !paid) missed = after.missing;
    waited = !flush && before.cycle < before.resume;
    stopped = after.end == End::Pass || after.end == End::Fail || after.end == End::OutputFull;
}

bool Facts::makes_load(PipelineKind kind, size_t place) const {
    bool comes_to_memory = kind == PipelineKind::Window
                               ? has_begun(place)
                               : kept_before(place).progress == Progress::Executing &&
                                     kept_after(place).progress == Progress::Accessing;
    return comes_to_memory && kept_after(place).accesses_ram(Reach::Load);
}

std::vector<uint64_t> misses_after(PipelineKind kind, const Parameters& parameters,
                                   const Facts& facts, const std::vector<uint64_t>& misses) {
    std::vector<uint64_t> after(facts.kept + facts.appended, 0);
    for (size_t place = 0; place < facts.kept; place++)
        after[place] = facts.makes_load(kind, place)
                           ? facts.kept_after(place).until - facts.cycle() - parameters.mem_latency
                           : misses[facts.left + place];
    return after;
}
