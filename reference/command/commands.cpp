#include "command/commands.h"

#include <unistd.h>

#include <cerrno>
#include <cinttypes>
#include <cstdio>
#include <cstring>

#include "base/text.h"
#include "command/insight_commands.h"
#include "debugger/gdb_session.h"
#include "debugger/script.h"
#include "files/soak.h"
#include "hart/report.h"
#include "hart/run_alone.h"
#include "pipeline/monolithic.h"
#include "split/split_check.h"

namespace {

constexpr uint64_t image_limit = 67108864, machine_limit = 65536, plan_limit = 1048576;
constexpr uint64_t script_limit = 65536, input_limit = 16777216;

// What a line's files hold.
struct Files {
    std::string image, plan, script, input;
    std::vector<std::string> machines;
};

bool is_among(const std::string& command, std::initializer_list<const char*> commands) {
    for (const char* one : commands)
        if (command == one) return true;
    return false;
}

bool has_plan(const Line& line) {
    return is_among(line.command, {"sched", "inorder"}) && line.names.size() == 3;
}

bool has_pipeline(const Line& line) {
    return is_among(line.command,
                    {"run", "sched", "inorder", "splitrun", "trace", "stack", "profile"});
}

// The names of the machine files, in their order.
std::vector<std::string> machines_of(const Line& line) {
    const std::vector<std::string>& names = line.names;
    if (line.command == "sweep") return {names.begin() + 1, names.end()};
    if (has_pipeline(line)) return {names[1]};
    if (line.machine) return {*line.machine};
    return {};
}

Files read_files(const Line& line) {
    Files files;
    files.image = read_file(line.names[0], "image", image_limit);
    for (const std::string& name : machines_of(line))
        files.machines.push_back(read_file(name, "machine", machine_limit));
    if (has_plan(line)) files.plan = read_file(line.names[2], "plan", plan_limit);
    if (line.command == "back") files.script = read_file(line.names[1], "script", script_limit);
    if (line.input) files.input = read_file(*line.input, "input", input_limit);
    return files;
}

void test_plan(const std::string& plan) {
    for (size_t place = 0; place < plan.size(); place++)
        if (plan[place] == '\0' || !strchr("CPOTKS \r\n", plan[place]))
            throw Refusal{status::bad_plan, formatted("bad plan: %zu", place)};
}

Setup setup_of(const Line& line, const std::string& input) {
    Setup setup;
    setup.cycles = line.cycles;
    setup.output = line.output;
    setup.ring = (uint32_t)line.ring;
    setup.input = input;
    return setup;
}

// Of a machine file a run without a pipeline takes the place of RAM alone.
Parameters placed(const Parameters& parameters) {
    Parameters plain;
    plain.ram_base = parameters.ram_base;
    plain.ram_size = parameters.ram_size;
    return plain;
}

void read_image_into(Setup& setup, const std::string& bytes) {
    setup.image = read_image(bytes, setup.parameters.ram_base, setup.parameters.ram_size);
}

// ---- texts

std::string dump_text(const Line& line, const Memory& memory) {
    std::string text;
    if (!line.dump) return text;
    for (uint32_t k = 0; k < line.dump->length; k++) {
        uint32_t address = line.dump->address + k;
        if (k % 16 == 0) text += formatted("%s%08x:", k ? "\n" : "", address);
        text += memory.has(address) ? formatted(" %02x", memory.byte(address)) : " --";
    }
    return text + "\n";
}

// The number that ends the process: of a code it can tell eight bits.
// Definition: crates/fast_run/specs/Program.antt (exit_number).
int exit_number(const Line& line, const Ending& ending) {
    bool is_code = line.ends_with_code && ending.end == End::Fail;
    return is_code ? ending.code % 256 : ending.exit_status();
}

Answer run_answer(const Line& line, const Final& final, const State& state, const Memory& memory) {
    return {exit_number(line, final.ending), run_text(final, state) + dump_text(line, memory)};
}

template <class Machine>
Answer machine_answer(const Line& line, const Machine& machine) {
    return run_answer(line, machine.final(), machine.state, machine.memory);
}

// ---- commands

Answer func(const Line& line, const Setup& setup) {
    State state;
    Memory memory;
    auto tell = [](const Entry& entry, uint64_t step) {
        fprintf(stderr, "%" PRIu64 " %08x %08x\n", step, entry.address, entry.word);
    };
    Final final = line.tells_commits ? run_alone(setup, state, memory, tell)
                                     : run_alone(setup, state, memory);
    return run_answer(line, final, state, memory);
}

Answer run_with_window(const Line& line, const Setup& setup) {
    Monolithic machine(setup);
    machine.skips_idle_cycles = !line.walks_idle_cycles;
    machine.tells_commits = line.tells_commits;
    machine.run();
    return machine_answer(line, machine);
}

Answer soak(const Line& line) {
    Setup setup;
    setup.parameters = read_machine(soak_machine);
    setup.image = soak_image(line.seed, soak_blocks);
    return run_with_window(line, setup);
}

// The plan leads to a boundary; the machine that isn't split has to be there too.
Answer sched(const Line& line, const Setup& setup, const std::string& plan) {
    Split split(setup, std::make_unique<WindowTimingSide>(setup));
    split.tells_orders = line.tells_orders;
    split.play_plan(plan);
    split.play_to_boundary();
    split.settle();
    Monolithic machine(setup);
    machine.run_until(split.timing->cycle);
    compare_settled(split, machine);
    if (line.tells_orders)
        fprintf(stderr,
                "taken %" PRIu64 " dropped %" PRIu64 " computed %" PRIu64 " undone %" PRIu64 "\n",
                split.taken, split.dropped, split.functional.made, split.functional.taken_back);
    return run_answer(line, split.final(), split.functional.state, split.functional.memory);
}

Answer run_in_order(const Line& line, const Setup& setup, const std::string& plan) {
    InOrder machine(setup);
    machine.tells_commits = line.tells_commits;
    machine.run();
    if (line.checks) {
        Split split(setup, std::make_unique<InOrderTimingSide>(setup));
        split.play_plan(plan);
        SplitCheck<InOrder>(split, setup, line.random_seed.value_or(0)).play_to_end();
        split.settle();
        compare_settled(split, machine);
    }
    return machine_answer(line, machine);
}

Answer run(const Line& line, const Setup& setup) {
    return line.is_in_order ? run_in_order(line, in_order_setup(setup), "")
                            : run_with_window(line, setup);
}

// The split machine to its end, by rounds or by random events.
Answer splitrun(const Line& line, const Setup& setup) {
    Split split(setup, std::make_unique<WindowTimingSide>(setup));
    split.tells_orders = line.tells_orders;
    if (line.random_seed)
        SplitCheck<Monolithic>(split, setup, *line.random_seed).play_to_end();
    else
        split.play_to_end();
    split.settle();
    Monolithic machine(setup);
    machine.run();
    compare_settled(split, machine);
    return run_answer(line, split.final(), split.functional.state, split.functional.memory);
}

template <class Machine>
std::string line_of(Machine machine) {
    machine.run();
    return machine.ending.text() +
           formatted(" cycles %" PRIu64 " instructions %" PRIu64 " mispredicted %" PRIu64
                     " icache %" PRIu64 " dcache %" PRIu64 "\n",
                     machine.cycle, machine.state.csrs.retired, machine.counts.mispredicted,
                     machine.caches.counts.icache_misses, machine.caches.counts.dcache_misses);
}

std::string sweep_line(const Line& line, const Setup& setup) {
    return line.is_in_order ? line_of(InOrder(in_order_setup(setup))) : line_of(Monolithic(setup));
}

// A fault of a machine file, or of the image for its RAM, is told in the machine's line.
Answer sweep(const Line& line, Setup setup, const Files& files) {
    std::string text;
    for (size_t k = 0; k < files.machines.size(); k++) {
        text += line.names[k + 1] + ": ";
        try {
            setup.parameters = read_machine(files.machines[k]);
            read_image_into(setup, files.image);
            text += sweep_line(line, setup);
        } catch (MachineFault& fault) {
            text += "machine: " + fault.text + "\n";
        } catch (ImageFault& fault) {
            text += "image: " + fault.text + "\n";
        }
    }
    return {status::shown, text};
}

Answer back(const Line& line, const Setup& setup, const std::string& script) {
    std::vector<ScriptCommand> commands;
    try {
        commands = read_script(script);
    } catch (ScriptFault& fault) {
        throw Refusal{status::bad_script, formatted("bad script: %" PRIu64, fault.line)};
    }
    Debugger debugger(setup, line.history);
    std::string text;
    for (const ScriptCommand& command : commands)
        text += debugger.play(command);
    return {status::shown, text};
}

// Talks to the end of standard input.
Answer gdb(const Line& line, const Setup& setup) {
    GdbSession session(setup, line.history);
    char buffer[4096];
    for (;;) {
        ssize_t count = read(STDIN_FILENO, buffer, sizeof buffer);
        if (count < 0 && errno == EINTR) continue;
        if (count < 0) throw Refusal{status::read_fault, "read fault: packets"};
        if (count == 0) return {status::shown, ""};
        for (ssize_t k = 0; k < count; k++)
            if (!write_out(session.take((uint8_t)buffer[k]))) return {status::write_fault, ""};
    }
}

}  // namespace

Answer answer_line(const Line& line) {
    const std::string& command = line.command;
    if (command == "soak") return soak(line);
    Files files = read_files(line);
    Setup setup = setup_of(line, files.input);
    if (command == "sweep") return sweep(line, setup, files);
    try {
        if (!files.machines.empty()) setup.parameters = read_machine(files.machines[0]);
        read_image_into(setup, files.image);
        if (!has_pipeline(line)) setup.parameters = placed(setup.parameters);
    } catch (MachineFault& fault) {
        throw Refusal{status::machine, "machine: " + fault.text};
    } catch (ImageFault& fault) {
        throw Refusal{status::image, "image: " + fault.text};
    }
    test_plan(files.plan);
    if (command == "func") return func(line, setup);
    if (command == "run") return run(line, setup);
    if (command == "sched") return sched(line, setup, files.plan);
    if (command == "inorder") return run_in_order(line, in_order_setup(setup), files.plan);
    if (command == "splitrun") return splitrun(line, setup);
    if (command == "back") return back(line, setup, files.script);
    if (command == "gdb") return gdb(line, setup);
    return answer_insight(line, setup);
}
