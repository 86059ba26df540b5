// The programs of `soak`, made from a number. Definitions: crates/gen_image/specs/Draws.antt,
// Assembly.antt, Soak.antt, Machine.antt.
#pragma once

#include <cstdint>

#include "files/image.h"

// The generator PCG-XSH-RR 64/32 (O'Neill, 2014).
class Draws {
public:
    Draws(uint64_t seed, uint64_t stream);
    uint32_t next();

    // A number below another one, as the rest of a draw.
    uint32_t below(uint32_t bound) { return next() % bound; }

private:
    uint64_t state_, increment_;

    void step() { state_ = state_ * 6364136223846793005ull + increment_; }
};

constexpr uint32_t soak_blocks = 16384;

// The program of a seed, with so many blocks.
Image soak_image(uint64_t seed, uint32_t blocks);

// The machine file under which it runs.
extern const char* const soak_machine;
