#include "debugger/script.h"

#include <algorithm>
#include <cinttypes>
#include <optional>

#include "base/text.h"
#include "hart/report.h"

namespace {

constexpr uint64_t most_steps = 1099511627776;

std::optional<uint32_t> read_address(const std::string& word) {
    if (word.size() != 8) return std::nullopt;
    uint32_t address = 0;
    for (unsigned char character : word) {
        int digit = digit_value(character);
        if (digit < 0) return std::nullopt;
        address = address << 4 | (uint32_t)digit;
    }
    return address;
}

std::optional<ScriptCommand> read_command(const std::string& line) {
    using Kind = ScriptCommand::Kind;
    if (line == "r") return ScriptCommand{Kind::Registers};
    if (line.size() < 3 || line[1] != ' ') return std::nullopt;
    std::string word = line.substr(2);
    if (line[0] == 't') {
        auto address = read_address(word);
        if (!address) return std::nullopt;
        return ScriptCommand{Kind::RunTo, 0, *address};
    }
    ScriptCommand command{line[0] == 's' ? Kind::Steps : Kind::StepsBack};
    if (line[0] != 's' && line[0] != 'b') return std::nullopt;
    if (!read_number(word, 1, most_steps, command.count)) return std::nullopt;
    return command;
}

}  // namespace

std::vector<ScriptCommand> read_script(const std::string& bytes) {
    std::vector<ScriptCommand> commands;
    uint64_t number = 0;
    for (size_t place = 0; place < bytes.size();) {
        number++;
        size_t end = bytes.find('\n', place);
        bool is_closed = end != std::string::npos;
        std::string line = bytes.substr(place, is_closed ? end - place : end);
        place = is_closed ? end + 1 : bytes.size();
        if (is_closed && !line.empty() && line.back() == '\r') line.pop_back();
        if (line.empty()) continue;
        auto command = read_command(line);
        if (!command) throw ScriptFault{number};
        commands.push_back(*command);
    }
    return commands;
}

bool Debugger::step() {
    UndoStep undo;
    auto entry = walk_.step(undo);
    if (!entry) return false;
    undo_steps_.push_back(undo);
    uint64_t position = walk_.position;
    if (position > history_) floor_ = std::max(floor_, position - history_);
    if (entry->is_fence_i()) floor_ = position;
    while (undo_steps_.size() > position - floor_)
        undo_steps_.pop_front();
    return true;
}

bool Debugger::step_back() {
    if (walk_.position == floor_) return false;
    take_back(walk_.state, walk_.memory, undo_steps_.back());
    undo_steps_.pop_back();
    walk_.position--;
    walk_.ending = Ending();
    return true;
}

std::string Debugger::make_steps(uint64_t count) {
    for (; count > 0; count--)
        if (!step()) return walk_.end().text();
    return "moved";
}

std::string Debugger::make_steps_back(uint64_t count) {
    for (; count > 0; count--)
        if (!step_back()) return "oldest";
    return "moved";
}

std::string Debugger::run_to(uint32_t address) {
    do {
        if (!step()) return walk_.end().text();
    } while (walk_.state.pc != address);
    return "reached";
}

std::string Debugger::play(const ScriptCommand& command) {
    std::string word;
    switch (command.kind) {
        case ScriptCommand::Kind::Registers:
            return formatted("output: %zu bytes\n", walk_.state.output.size()) +
                   state_lines(walk_.state);
        case ScriptCommand::Kind::Steps: word = make_steps(command.count); break;
        case ScriptCommand::Kind::StepsBack: word = make_steps_back(command.count); break;
        case ScriptCommand::Kind::RunTo: word = run_to(command.address); break;
    }
    return formatted("%" PRIu64 " %08x ", walk_.position, walk_.state.pc) + word + "\n";
}
