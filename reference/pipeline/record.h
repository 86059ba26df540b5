// An instruction in a pipeline that holds values. Definition: crates/mono_model/specs/Window.antt.
#pragma once

#include <cstdint>
#include <optional>

#include "hart/result.h"

enum class Stage : uint8_t { Waiting, Executing, Done };

// The fields of its result are those of what it came to, once it has begun.
struct Record : Result {
    uint32_t address = 0, word = 0, predicted = 0;
    Instruction instruction;
    Stage stage = Stage::Waiting;
    std::optional<uint64_t> time;  // the cycle that it was given as its time, if it was
    uint64_t since = 0;            // the cycle in which it was fetched
    uint64_t until = 0;            // the cycle in which it is done, while it executes

    // Of the monolithic machine: the numbers of the youngest older records that write its sources
    // as it is fetched, and how many of them still give no value.
    uint64_t first_producer = 0, second_producer = 0;
    uint8_t missing = 0;

    // Of the in-order machine: for how many cycles it stays where it is.
    uint64_t wait = 0;

    bool is_mispredicted() const { return !has_cause() && next != predicted; }
};
