// What each command does. Definitions: crates/fast_jobs/specs/Files.antt, Stages.antt, Job.antt,
// Outcome.antt, Plan.antt, SweepFiles.antt; crates/report_text/specs/SweepText.antt;
// crates/fast_run/specs/Program.antt.
#pragma once

#include "command/answer.h"
#include "command/line.h"

// Reads the files that a line names, tests them in their order, and does what it says. A fault is
// thrown as a Refusal.
Answer answer_line(const Line& line);

// Words that are this program's alone and no line: mkelf, soakimage, toml, disasm, packets. The
// answer is nothing for all other words.
std::optional<int> answer_own_words(const Words& words);
