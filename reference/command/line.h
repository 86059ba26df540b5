// A command line. Definitions: crates/fast_cli/specs/Words.antt, Values.antt, Form.antt, Line.antt.
#pragma once

#include <cstdint>
#include <optional>
#include <string>
#include <vector>

using Words = std::vector<std::string>;

struct Line {
    std::string command;
    std::vector<std::string> names;  // of files; of `soak` the seed
    uint64_t threads = 2, ring = 64, cycles = 10000000, output = 16777216, history = 0;
    uint64_t seed = 0;
    std::optional<std::string> input;
    std::optional<std::string> machine;  // the option --machine
    uint64_t from = 0;
    std::optional<uint64_t> to;
    bool is_in_order = false;     // the option --pipeline
    bool ends_with_code = false;  // the flag --exit-code

    // Words that only this program takes.
    bool checks = false, tells_commits = false, tells_orders = false, walks_idle_cycles = false;
    std::optional<uint64_t> random_seed;
    struct Dump {
        uint32_t address, length;
    };
    std::optional<Dump> dump;
};

// The line that words are; nothing where they are none.
std::optional<Line> read_line(const Words& words);

extern const char* const usage;
