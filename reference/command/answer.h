// Answers of the program: its exit status and what it writes.
// Definitions: crates/report_text/specs/FaultText.antt; crates/fsim_ports/specs.
#pragma once

#include <cstdint>
#include <string>

// Exit statuses beside those of a run.
namespace status {
constexpr int shown = 5, usage = 10, image = 11, machine = 12, missing = 13, read_fault = 14,
              write_fault = 15, too_long = 17, bad_plan = 18, bad_script = 21, too_much_text = 23;
}

struct Answer {
    int status;
    std::string text;
};

// A refusal, whose line is written with `fast: ` before it.
struct Refusal {
    int status;
    std::string line;
};

// A file's bytes, or a refusal that names its role.
std::string read_file(const std::string& name, const char* role, uint64_t limit);

void write_file(const std::string& name, const std::string& bytes);

// Writes to standard output, and tells whether all of it was taken.
bool write_out(const std::string& bytes);
