#include "hart/report.h"

#include <cinttypes>

#include "base/text.h"

namespace {

std::string count_line(const char* name, uint64_t count) {
    return formatted("%s: %" PRIu64 "\n", name, count);
}

std::string misses_line(const char* name, uint64_t accesses, uint64_t misses) {
    return formatted("%s: %" PRIu64 " accesses, %" PRIu64 " misses\n", name, accesses, misses);
}

std::string pipeline_lines(const Counts& counts) {
    return count_line("replays", counts.replays) + count_line("fetched", counts.fetched) +
           count_line("squashed", counts.squashed) + count_line("branches", counts.branches) +
           count_line("mispredicted", counts.mispredicted);
}

std::string cache_lines(const CacheCounts& counts, uint32_t version) {
    std::string text = misses_line("icache", counts.icache_accesses, counts.icache_misses) +
                       misses_line("dcache", counts.dcache_accesses, counts.dcache_misses);
    if (version == 2)
        text += misses_line("l2", counts.l2_accesses, counts.l2_misses) +
                count_line("writebacks", counts.writebacks);
    return text;
}

}  // namespace

std::string state_lines(const State& state) {
    std::string text;
    for (int k = 0; k < 32; k++)
        text += formatted("x%d=%08x%c", k, state.registers[k], k % 4 == 3 ? '\n' : ' ');
    const Csrs& csrs = state.csrs;
    text += formatted("mstatus=%08x mie=%08x mtvec=%08x mscratch=%08x\n", csrs.mstatus(),
                      csrs.enabled(), csrs.mtvec, csrs.mscratch);
    text += formatted("mepc=%08x mcause=%08x mtval=%08x mtimecmp=%016" PRIx64 "\n", csrs.mepc,
                      csrs.mcause, csrs.mtval, state.devices.compare());
    return text;
}

std::string report_text(const Final& final, const State& state) {
    std::string text = "status: " + final.ending.text() + "\n";
    if (final.has_pipeline) text += count_line("cycles", final.cycles);
    text += count_line("instructions", state.csrs.retired) +
            count_line("exceptions", final.counts.exceptions) +
            count_line("interrupts", final.counts.interrupts);
    if (final.has_pipeline)
        text += pipeline_lines(final.counts) + cache_lines(final.caches, final.version);
    text += formatted("output: %zu bytes\npc: %08x\n", state.output.size(), state.pc);
    return text + state_lines(state);
}

std::string run_text(const Final& final, const State& state) {
    bool is_open = !state.output.empty() && state.output.back() != '\n';
    return state.output + (is_open ? "\n" : "") + report_text(final, state);
}
