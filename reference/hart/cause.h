// Causes of exceptions, and widths and places of accesses.
// Definitions: crates/fsim_base/specs/Cause.antt, Width.antt; crates/mono_model/specs/Result.antt.
#pragma once

#include <cstdint>

enum class Cause : int8_t {
    None = -1,
    InstructionMisaligned = 0,
    InstructionAccess = 1,
    IllegalInstruction = 2,
    Breakpoint = 3,
    LoadMisaligned = 4,
    LoadAccess = 5,
    StoreMisaligned = 6,
    StoreAccess = 7,
    EnvironmentCall = 11,
};

// mcause of the timer interrupt.
constexpr uint32_t timer_interrupt = 0x80000007u;

// What an instruction reaches beside its registers.
enum class Reach : uint8_t { Nothing, Load, Store };

// Where the bytes of an access lie.
enum class Spot : uint8_t { Nowhere, Ram, Device };

// How a finisher store ends a run.
enum class Halt : uint8_t { None, Pass, Fail };
