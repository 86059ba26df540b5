// The report of a run. Definitions: crates/mono_model/specs/Report.antt;
// crates/report_text/specs/Lines.antt, FuncText.antt.
#pragma once

#include <string>

#include "hart/state.h"

// The lines of registers and CSRs.
std::string state_lines(const State& state);

std::string report_text(const Final& final, const State& state);

// What is written of a run: its output, closed by a line feed, and its report.
std::string run_text(const Final& final, const State& state);
