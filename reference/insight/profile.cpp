#include "insight/profile.h"

#include <cinttypes>

#include "base/text.h"

void Profile::learn(const Facts& facts) {
    Charge head = known_.head(facts);
    rows.at(head.address).spent[(unsigned)head.cause]++;
    heads_[(unsigned)head.cause]++;
    fetch_ends_[(unsigned)fetch_end(kind_, setup_.parameters, facts)]++;
    leaving_[facts.left]++;
    last_left_ = facts.left;
    occupied_ += facts.before.window.size();
    for (const Shown& shown : facts.before.window)
        waiting_ += shown.progress == Progress::Waiting;
    count_events(facts);
    count_accesses(facts);
    known_.learn(facts);
}

void Profile::count_events(const Facts& facts) {
    for (size_t place = 0; place < facts.left; place++) {
        const Shown& left = facts.left_at(place);
        Row& row = rows.at(left.address);
        if (place == facts.retired()) {
            row.exceptions++;
            continue;
        }
        row.retired++;
        row.taken += left.next != left.address + 4;
    }
    for (size_t place = 0; place < facts.squashed; place++)
        rows.at(facts.squashed_at(place).address).squashed++;
    if (facts.mispredicted)
        rows.at(facts.before.window[*facts.mispredicted].address).mispredicted++;
    for (size_t place = 0; place < facts.appended; place++) {
        const Shown& appended = facts.appended_at(place);
        Row& row = rows.at(appended.address);
        row.fetched++;
        row.word = appended.word;
    }
}

template <class Access>
void Profile::count_access(uint32_t address, Access access) {
    CacheCounts before = caches_.counts;
    access();
    Row& row = rows.at(address);
    for (auto column : cache_columns)
        row.caches.*column += caches_.counts.*column - before.*column;
}

// In the order of the phases: stores that commit, loads that begin, fetches.
void Profile::count_accesses(const Facts& facts) {
    for (size_t place = 0; place < facts.retired(); place++) {
        const Shown& left = facts.left_at(place);
        if (left.accesses_ram(Reach::Store))
            count_access(left.address, [&] { caches_.store(left.access_address); });
    }
    for (size_t place = 0; place < facts.kept; place++) {
        const Shown& kept = facts.kept_after(place);
        if (facts.makes_load(kind_, place))
            count_access(kept.address, [&] { caches_.load(kept.access_address); });
    }
    for (size_t place = facts.paid ? 1 : 0; place < facts.appended; place++) {
        uint32_t address = facts.appended_at(place).address;
        if (facts.appended_at(place).is_fetchable)
            count_access(address, [&] { caches_.fetch(address); });
    }
    if (facts.missed) count_access(*facts.missed, [&] { caches_.fetch(*facts.missed); });
}

std::string Profile::stack_text() const {
    std::string text;
    for (unsigned k = 0; k < cause_count; k++)
        text += formatted("head.%s: %" PRIu64 "\n", cause_name((CycleCause)k), heads_[k]);
    for (unsigned k = 0; k < fetch_end_count; k++)
        text += formatted("fetch.%s: %" PRIu64 "\n", fetch_end_name((FetchEnd)k), fetch_ends_[k]);
    bool is_window = kind_ == PipelineKind::Window;
    uint32_t width = is_window ? setup_.parameters.core_commit : 1;
    for (uint32_t k = 0; k <= width; k++)
        text += formatted("left.%u: %" PRIu64 "\n", k, leaving_[k]);
    text += formatted("occupied: %" PRIu64 "\n", occupied_);
    if (is_window) text += formatted("waiting: %" PRIu64 "\n", waiting_);
    return text;
}
