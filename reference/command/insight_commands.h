// What trace, stack, profile and count write. Definitions: crates/insight_model/specs/Trace.antt
// (trace_of), Stack.antt (run_text), Profile.antt (profile_of), Count.antt (count_of_run).
#pragma once

#include "command/answer.h"
#include "command/line.h"
#include "hart/state.h"

Answer answer_insight(const Line& line, const Setup& setup);
