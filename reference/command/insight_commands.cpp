#include "command/insight_commands.h"

#include "base/text.h"
#include "hart/report.h"
#include "hart/run_alone.h"
#include "insight/profile.h"
#include "insight/trace.h"

namespace {

constexpr uint64_t usual_trace_length = 10000;
constexpr size_t text_room = 1000000;
constexpr uint32_t most_text_pages = 1024;

// There are rows for so much text.
void test_text(const Setup& setup) {
    Memory memory;
    memory.open(setup.parameters.ram_base, setup.parameters.ram_size, setup.image);
    uint32_t pages = memory.text_pages();
    if (pages > most_text_pages)
        throw Refusal{status::too_much_text, formatted("too much text: %u", pages)};
}

// Calls `learn` with what each cycle did, up to a cycle or the end; the answer is the last sight.
template <class Machine, class Learn>
Sight watch(Machine& machine, uint64_t to, Learn learn) {
    Sight before, after;
    see(machine, before);
    while (machine.ending.is_running() && machine.cycle < to) {
        machine.make_cycle();
        see(machine, after);
        learn(Facts(before, after));
        std::swap(before, after);
    }
    return before;
}

template <class Machine>
Answer trace(const Line& line, Machine& machine, PipelineKind kind) {
    machine.run_until(line.from);
    Sight first;
    see(machine, first);
    Trace trace(kind, machine.parameters, first);
    bool is_written = true;
    watch(machine, line.to.value_or(line.from + usual_trace_length), [&](const Facts& facts) {
        trace.learn(facts);
        if (trace.length() > text_room) is_written &= write_out(trace.take_text());
    });
    trace.close(machine.cycle);
    return {is_written ? status::shown : status::write_fault, is_written ? trace.take_text() : ""};
}

template <class Machine>
Answer profile(const Line& line, Machine& machine, PipelineKind kind) {
    PhaseWitness witness;
    if (line.checks) machine.witness = &witness;
    Profile profile(kind, machine.setup, machine.memory);
    Sight last = watch(machine, ~0ull, [&](const Facts& facts) { profile.learn(facts); });
    if (line.checks) profile.check(machine, last, witness);
    if (line.command == "profile") return {status::shown, profile_text(profile.rows)};
    return {machine.ending.exit_status(),
            run_text(machine.final(), machine.state) + profile.stack_text()};
}

template <class Machine>
Answer watched(const Line& line, Machine& machine, PipelineKind kind) {
    return line.command == "trace" ? trace(line, machine, kind) : profile(line, machine, kind);
}

Answer count(const Setup& setup) {
    State state;
    Memory memory;
    Rows rows(memory);
    run_alone(setup, state, memory, [&](const Entry& entry, uint64_t) {
        Row& row = rows.at(entry.address);
        row.word = entry.word;
        if (entry.has_cause()) {
            row.exceptions++;
        } else {
            row.retired++;
            row.taken += entry.next != entry.address + 4;
        }
    });
    return {status::shown, count_text(rows)};
}

}  // namespace

Answer answer_insight(const Line& line, const Setup& setup) {
    if (line.command == "count" || line.command == "profile") test_text(setup);
    if (line.command == "count") return count(setup);
    if (line.is_in_order) {
        const Setup own = in_order_setup(setup);
        InOrder machine(own);
        return watched(line, machine, PipelineKind::InOrder);
    }
    Monolithic machine(setup);
    machine.skips_idle_cycles = false;
    return watched(line, machine, PipelineKind::Window);
}
