// The laws of a profile and a stack, tested on a run that is over: sums over rows and over causes,
// and what the phases told of themselves. Laws: crates/insight_laws/src.
#include "base/text.h"
#include "insight/profile.h"

namespace {

void expect(bool holds, const char* what) {
    if (!holds) internal_fault("profile: %s", what);
}

}  // namespace

void Profile::check(const Pipeline& machine, const Sight& last, const PhaseWitness& witness) {
    Row total = rows.total();
    expect(total.cycles() == machine.cycle, "each cycle is charged once");
    expect(total.retired == machine.state.csrs.retired, "retired");
    expect(total.exceptions == machine.counts.exceptions, "exceptions");
    expect(total.fetched == machine.counts.fetched, "fetched");
    expect(total.squashed == machine.counts.squashed, "squashed");
    expect(total.mispredicted == machine.counts.mispredicted, "mispredicted");
    expect(total.caches == machine.caches.counts, "accesses and misses");
    for (unsigned k = 0; k < cause_count; k++)
        expect(heads_[k] == total.spent[k], "the stack has the sums of the rows");
    check_stack(machine);
    check_rows(last);
    check_witness(witness, machine.memory);
}

void Profile::check_stack(const Pipeline& machine) const {
    uint64_t heads = 0, ends = 0, cycles = 0, left = 0, busy = 0;
    for (uint64_t count : heads_)
        heads += count;
    for (uint64_t count : fetch_ends_)
        ends += count;
    for (unsigned k = 0; k <= most_leaving; k++) {
        cycles += leaving_[k];
        left += k * leaving_[k];
        if (k > 0) busy += leaving_[k];
    }
    expect(heads == machine.cycle && ends == machine.cycle && cycles == machine.cycle,
           "each cycle is counted in each part of the stack");
    expect(left == machine.state.csrs.retired + machine.counts.exceptions, "those that left");
    // The oldest record may be done and stay, where the output has no room for its byte.
    bool stays = machine.ending.end == End::OutputFull && last_left_ == 0;
    expect(heads_[(unsigned)CycleCause::Commit] == busy + (stays ? 1 : 0), "commit");
}

// Each record that was fetched left, was squashed, or is in the window.
void Profile::check_rows(const Sight& last) {
    for (const Shown& shown : last.window)
        rows.at(shown.address).fetched--;
    for (const auto& entry : rows.counted()) {
        const Row& row = *entry.second;
        expect(row.fetched == row.retired + row.exceptions + row.squashed, "a row's records");
    }
    for (const Shown& shown : last.window)
        rows.at(shown.address).fetched++;
}

void Profile::check_witness(const PhaseWitness& witness, const Memory& memory) {
    Rows told(memory);
    for (const auto& [address, counts] : witness.told) {
        Row& row = told.at(address);
        row.mispredicted += counts.mispredicted;
        for (auto column : cache_columns)
            row.caches.*column += counts.caches.*column;
    }
    auto compare = [](const Row& one, const Row& other) {
        expect(one.mispredicted == other.mispredicted && one.caches == other.caches,
               "what the phases told");
    };
    auto address_of = [](const std::string& name) {
        return name == "other" ? 1u : (uint32_t)std::stoul(name, nullptr, 16);
    };
    for (const auto& [name, row] : rows.counted())
        compare(*row, told.at(address_of(name)));
    for (const auto& [name, row] : told.counted())
        compare(*row, rows.at(address_of(name)));
}
