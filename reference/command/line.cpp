#include "command/line.h"

#include <algorithm>

#include "base/text.h"

const char* const usage =
    "usage: fast func IMAGE, run IMAGE MACHINE, sched IMAGE MACHINE PLAN, soak SEED, "
    "back IMAGE SCRIPT, inorder IMAGE MACHINE PLAN, sweep IMAGE MACHINES, trace IMAGE MACHINE, "
    "stack IMAGE MACHINE, profile IMAGE MACHINE, count IMAGE, gdb IMAGE";

namespace {

// A command's form: how many names it takes, which options, and which flags, which have no value;
// and how many steps can be taken back where the option is left out.
struct Form {
    const char* command;
    size_t fewest, most;
    Words options;
    Words flags = {};
    uint64_t history = 65536;
};

const Form forms[] = {
    {"func", 1, 1, {"machine", "cycles", "input", "output"}, {"exit-code"}},
    {"run", 2, 2, {"pipeline", "threads", "ring", "cycles", "input", "output"}, {"exit-code"}},
    {"sched", 3, 3, {"ring", "cycles", "input", "output"}},
    {"soak", 1, 1, {}},
    {"back", 2, 2, {"machine", "history", "cycles", "input", "output"}},
    {"inorder", 2, 3, {"ring", "cycles", "input", "output"}, {"exit-code"}},
    {"sweep", 2, 65, {"pipeline", "ring", "cycles", "input", "output"}},
    {"trace", 2, 2, {"from", "to", "pipeline", "cycles", "input", "output"}},
    {"stack", 2, 2, {"pipeline", "cycles", "input", "output"}},
    {"profile", 2, 2, {"pipeline", "cycles", "input", "output"}},
    {"count", 1, 1, {"machine", "cycles", "input", "output"}},
    {"gdb", 1, 1, {"machine", "history", "cycles", "input", "output"}, {}, 1048576},
    // This program's own.
    {"splitrun", 2, 2, {"ring", "cycles", "input", "output"}},
};

constexpr uint64_t most_cycles = 1099511627776;

bool is_option_word(const std::string& word) {
    return word.size() > 1 && word[0] == '-';
}

bool is_among(const Words& words, const std::string& word) {
    return std::find(words.begin(), words.end(), word) != words.end();
}

bool set_name(const std::string& name, std::optional<std::string>& place) {
    place = name;
    return !name.empty();
}

bool set_option(const std::string& option, const std::string& value, Line& line) {
    if (option == "input") return set_name(value, line.input);
    if (option == "machine") return set_name(value, line.machine);
    if (option == "pipeline") {
        line.is_in_order = value == "inorder";
        return value == "window" || value == "inorder";
    }
    if (option == "to") {
        line.to = 0;
        return read_number(value, 0, most_cycles, *line.to);
    }
    if (option == "from") return read_number(value, 0, most_cycles, line.from);
    if (option == "threads") return read_number(value, 1, 2, line.threads);
    if (option == "ring") return read_number(value, 1, 65536, line.ring);
    if (option == "cycles") return read_number(value, 1, most_cycles, line.cycles);
    if (option == "output") return read_number(value, 0, 16777216, line.output);
    return read_number(value, 1, 1048576, line.history);
}

// The one flag that there is takes no value.
bool set_flag(bool has_value, Line& line) {
    line.ends_with_code = true;
    return !has_value;
}

// Reads the flag at a place, or the option with its value in the same word or the next one.
bool read_option(const Words& words, size_t& place, const Form& form, Words& seen, Line& line) {
    const std::string& word = words[place];
    if (word.compare(0, 2, "--") != 0) return false;
    size_t equals = word.find('=');
    bool has_value = equals != std::string::npos;
    std::string option = word.substr(2, has_value ? equals - 2 : equals);
    if (is_among(seen, option)) return false;
    seen.push_back(option);
    if (is_among(form.flags, option)) return set_flag(has_value, line);
    if (!is_among(form.options, option)) return false;
    if (has_value) return set_option(option, word.substr(equals + 1), line);
    if (++place == words.size() || is_option_word(words[place])) return false;
    return set_option(option, words[place], line);
}

}  // namespace

std::optional<Line> read_line(const Words& words) {
    if (words.empty() || !std::all_of(words.begin(), words.end(), is_utf8)) return std::nullopt;
    Line line;
    line.command = words[0];
    auto form = std::find_if(std::begin(forms), std::end(forms),
                             [&](const Form& form) { return line.command == form.command; });
    if (form == std::end(forms)) return std::nullopt;
    line.history = form->history;
    Words seen;
    bool only_names = false;
    for (size_t place = 1; place < words.size(); place++) {
        const std::string& word = words[place];
        if (only_names || !is_option_word(word)) {
            if (word.empty()) return std::nullopt;
            line.names.push_back(word);
        } else if (word == "--") {
            only_names = true;
        } else if (!read_option(words, place, *form, seen, line)) {
            return std::nullopt;
        }
    }
    if (line.names.size() < form->fewest || line.names.size() > form->most) return std::nullopt;
    if (line.command == "soak" && !read_number(line.names[0], 0, ~0ull, line.seed))
        return std::nullopt;
    return line;
}
