#include "insight/trace.h"

#include <cinttypes>

#include "base/text.h"
#include "insight/disassembly.h"

Trace::Trace(PipelineKind kind, const Parameters& parameters, const Sight& first)
    : kind_(kind), parameters_(parameters), misses_(first.window.size(), 0) {
    time_ = first.cycle > 0 ? first.cycle - 1 : 0;
    text_ = formatted("Kanata\t0004\nC=\t%" PRIu64 "\n", time_);
    for (size_t place = 0; place < first.window.size(); place++)
        introduce(first.window[place], first.departed() + place, first.cycle - 1);
}

std::string Trace::take_text() {
    std::string text;
    text.swap(text_);
    return text;
}

// The stage of a cycle: fetched, queued, executing, with its miss, complete; in order fetched,
// Decode, Execute, the access, with its miss, Write.
char Trace::cell(const Shown& shown, uint64_t miss, uint64_t cycle) const {
    if (kind_ == PipelineKind::InOrder) {
        if (cycle == shown.since) return 'F';
        if (shown.progress == Progress::Accessing && miss > 0) return 'M';
        return "DXAW"[(int)shown.progress];
    }
    switch (shown.progress) {
        case Progress::Waiting: return cycle < shown.since + parameters_.core_front ? 'F' : 'Q';
        case Progress::Executing: return miss > 0 && cycle + miss >= shown.until ? 'M' : 'X';
        default: return 'C';
    }
}

// The time stands before the first line of a cycle.
void Trace::tell_time(uint64_t cycle) {
    if (cycle != time_) text_ += formatted("C\t%" PRIu64 "\n", cycle - time_);
    time_ = cycle;
}

void Trace::note(const Mark& mark, const std::string& text) {
    text_ += formatted("L\t%" PRIu64 "\t1\t%s; \n", mark.number, text.c_str());
}

void Trace::note_misprediction(const Mark& mark, const Shown& shown) {
    note(mark, formatted("mispredicted: to %08x, predicted %08x", shown.next, shown.predicted));
}

void Trace::introduce(const Shown& shown, uint64_t place, uint64_t cycle) {
    Mark mark{introduced_++, cell(shown, 0, cycle)};
    marks_.push_back(mark);
    std::string word = shown.is_fetchable ? word_text(shown.address, shown.word) : "not fetched";
    text_ += formatted("I\t%" PRIu64 "\t%" PRIu64 "\t0\n", mark.number, place);
    text_ += formatted("L\t%" PRIu64 "\t0\t%08x: %08x %s\n", mark.number, shown.address, shown.word,
                       word.c_str());
    text_ += formatted("S\t%" PRIu64 "\t0\t%c\n", mark.number, mark.cell);
}

void Trace::learn(const Facts& facts) {
    std::vector<uint64_t> misses = misses_after(kind_, parameters_, facts, misses_);
    std::string before = take_text();
    tell_left(facts);
    tell_squashed(facts);
    marks_.erase(marks_.begin() + facts.left + facts.kept, marks_.end());
    marks_.erase(marks_.begin(), marks_.begin() + facts.left);
    tell_kept(facts, misses);
    tell_appended(facts);
    misses_ = misses;
    std::string lines = take_text();
    text_ = before;
    if (!lines.empty()) tell_time(facts.cycle());
    text_ += lines;
}

void Trace::tell_left(const Facts& facts) {
    for (size_t place = 0; place < facts.left; place++) {
        const Mark& mark = marks_[place];
        if (place == facts.retired())
            note(mark, formatted("trap %d", (int)facts.left_at(place).cause));
        text_ += formatted("R\t%" PRIu64 "\t%" PRIu64 "\t0\n", mark.number,
                           facts.before.departed() + place);
    }
}

void Trace::tell_squashed(const Facts& facts) {
    for (size_t k = 0; k < facts.squashed; k++) {
        size_t place = facts.left + facts.kept + k;
        const Mark& mark = marks_[place];
        if (facts.mispredicted == place) note_misprediction(mark, facts.before.window[place]);
        note(mark, std::string("squashed: ") + cause_name(facts.flush->cause));
        text_ += formatted("R\t%" PRIu64 "\t%" PRIu64 "\t1\n", mark.number,
                           facts.before.departed() + place);
    }
}

void Trace::tell_kept(const Facts& facts, const std::vector<uint64_t>& misses) {
    static const char* const spots[] = {" nowhere", "", " device"};
    for (size_t place = 0; place < facts.kept; place++) {
        const Shown& kept = facts.kept_after(place);
        Mark& mark = marks_[place];
        if (facts.has_begun(place) && kept.access != Reach::Nothing)
            note(mark, formatted("%s %08x%s", kept.access == Reach::Load ? "load" : "store",
                                 kept.access_address, spots[(int)kept.spot]));
        if (facts.makes_load(kind_, place) && misses[place] > 0)
            note(mark, formatted("dcache miss %" PRIu64, misses[place]));
        if (facts.mispredicted == facts.left + place) note_misprediction(mark, kept);
        char now = cell(kept, misses[place], facts.cycle());
        if (now != mark.cell) text_ += formatted("S\t%" PRIu64 "\t0\t%c\n", mark.number, now);
        mark.cell = now;
    }
}

void Trace::tell_appended(const Facts& facts) {
    for (size_t k = 0; k < facts.appended; k++) {
        size_t place = facts.kept + k;
        introduce(facts.appended_at(k), facts.before.departed() + facts.left + place,
                  facts.cycle());
        if (k == 0 && facts.paid) note(marks_[place], "icache miss");
        tell_producers(facts, place);
    }
}

// Arrows from the youngest older records that write its sources, if they give no value yet.
void Trace::tell_producers(const Facts& facts, size_t place) {
    const auto& window = facts.after.window;
    std::optional<uint64_t> first;
    for (uint8_t source :
         {window[place].instruction.first_source, window[place].instruction.second_source}) {
        size_t older = place;
        while (older > 0 && !window[older - 1].writes(source))
            older--;
        if (older == 0 || window[older - 1].gives_value()) continue;
        uint64_t producer = marks_[older - 1].number;
        if (first == producer) continue;
        text_ += formatted("W\t%" PRIu64 "\t%" PRIu64 "\t0\n", marks_[place].number, producer);
        first = producer;
    }
}
