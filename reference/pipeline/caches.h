// Caches, which know lines and no bytes. Definitions: crates/cache_timing/specs/Cache.antt,
// Caches.antt.
#pragma once

#include <cstdint>
#include <optional>
#include <vector>

#include "files/machine_file.h"

class Cache {
public:
    Cache(uint32_t line, uint32_t sets, uint32_t ways, bool writes_back)
        : shift_((uint32_t)__builtin_ctz(line)),
          sets_(sets),
          ways_(ways),
          writes_back_(writes_back),
          lines_((size_t)sets * ways),
          used_(ways > 0 ? sets : 0) {}

    bool is_there() const { return ways_ > 0; }

    // Whether the line of an address is held; it becomes the one used last in its set. `dropped`
    // is the address of a dirty line that had to leave for it.
    bool access(uint32_t address, bool is_store, std::optional<uint32_t>& dropped) {
        uint32_t number = address >> shift_, set = number & (sets_ - 1);
        Line* lines = &lines_[(size_t)set * ways_];
        bool makes_dirty = is_store && writes_back_;
        uint32_t held = used_[set], place = 0;
        if (held > 0 && lines[0].number == number) {
            lines[0].is_dirty |= makes_dirty;
            return true;
        }
        while (place < held && lines[place].number != number)
            place++;
        bool hits = place < held;
        Line line = hits ? lines[place] : Line{number, false};
        line.is_dirty |= makes_dirty;
        if (!hits) {
            if (held == ways_) {
                place = held - 1;
                if (lines[place].is_dirty) dropped = lines[place].number << shift_;
            } else {
                used_[set] = (uint8_t)(held + 1);
            }
        }
        for (; place > 0; place--)
            lines[place] = lines[place - 1];
        lines[0] = line;
        return hits;
    }

private:
    struct Line {
        uint32_t number = 0;
        bool is_dirty = false;
    };

    uint32_t shift_, sets_, ways_;
    bool writes_back_;
    std::vector<Line> lines_;    // of each set, the one used last in front
    std::vector<uint8_t> used_;  // how many lines each set holds
};

struct CacheCounts {
    uint64_t icache_accesses = 0, icache_misses = 0, dcache_accesses = 0, dcache_misses = 0,
             l2_accesses = 0, l2_misses = 0, writebacks = 0;

    bool operator==(const CacheCounts& other) const;
};

// The counts in the order in which a profile writes them.
inline constexpr uint64_t CacheCounts::*cache_columns[] = {
    &CacheCounts::icache_accesses, &CacheCounts::icache_misses, &CacheCounts::dcache_accesses,
    &CacheCounts::dcache_misses,   &CacheCounts::l2_accesses,   &CacheCounts::l2_misses,
    &CacheCounts::writebacks,
};

class Caches {
public:
    explicit Caches(const Parameters& p)
        : icache_(p.icache_line, p.icache_sets, p.icache_ways, false),
          dcache_(p.dcache_line, p.dcache_sets, p.dcache_ways, p.dcache_policy == 1),
          l2_(p.l2_line, p.l2_sets, p.l2_ways, false),
          icache_miss_(p.icache_miss),
          dcache_miss_(p.dcache_miss),
          l2_hit_(p.l2_hit),
          l2_miss_(p.l2_miss) {}

    CacheCounts counts;

    // How many cycles a fetch waits for its line.
    uint32_t fetch(uint32_t address);

    // How many cycles a load waits for its line. Nothing waits for a store.
    uint32_t load(uint32_t address) { return access_data(address, false); }
    void store(uint32_t address) { access_data(address, true); }

private:
    Cache icache_, dcache_, l2_;
    uint32_t icache_miss_, dcache_miss_, l2_hit_, l2_miss_;

    uint32_t access_data(uint32_t address, bool is_store);
    uint32_t access_second_level(uint32_t address);
};
