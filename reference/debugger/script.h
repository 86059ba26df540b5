// Scripts of `back`, and the debugger that plays them.
// Definitions: crates/back_debug/specs/Script.antt, Debugger.antt, Session.antt;
// crates/report_text/specs/DebugText.antt.
#pragma once

#include <deque>
#include <string>
#include <vector>

#include "debugger/walk.h"

struct ScriptCommand {
    enum class Kind { Steps, StepsBack, RunTo, Registers };

    Kind kind;
    uint64_t count = 0;
    uint32_t address = 0;
};

// The first line that is no command.
struct ScriptFault {
    uint64_t line;
};

// Reads a script, or throws its fault.
std::vector<ScriptCommand> read_script(const std::string& bytes);

class Debugger {
public:
    Debugger(const Setup& setup, uint64_t history) : walk_(setup), history_(history) {}

    // What is written of a command.
    std::string play(const ScriptCommand& command);

private:
    Walk walk_;
    uint64_t history_;
    std::deque<UndoStep> undo_steps_;
    uint64_t floor_ = 0;  // the oldest position to go back to

    bool step();
    bool step_back();
    std::string make_steps(uint64_t count);
    std::string make_steps_back(uint64_t count);
    std::string run_to(uint32_t address);
};
