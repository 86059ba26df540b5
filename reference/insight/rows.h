// Counts by address: a row for each word of text, and one for all other addresses.
// Definitions: crates/insight_model/specs/Profile.antt, Count.antt.
#pragma once

#include <array>
#include <string>
#include <unordered_map>

#include "hart/memory.h"
#include "insight/cause.h"
#include "pipeline/caches.h"

struct Row {
    uint32_t word = 0;
    uint64_t retired = 0, exceptions = 0, taken = 0, fetched = 0, squashed = 0, mispredicted = 0;
    CacheCounts caches;
    std::array<uint64_t, cause_count> spent{};  // cycles by their causes

    uint64_t cycles() const;
    bool has_counts() const;
    void add(const Row& other);
};

class Rows {
public:
    // Of a memory the text is read.
    explicit Rows(const Memory& memory) : memory_(memory) {}

    Row& at(uint32_t address);

    // The rows in which something was counted, by their names: addresses in order, then `other`.
    std::vector<std::pair<std::string, const Row*>> counted() const;

    // The sums of all rows.
    Row total() const;

private:
    const Memory& memory_;
    std::unordered_map<uint32_t, Row> rows_;
    Row other_;
};

std::string profile_text(const Rows& rows);
std::string count_text(const Rows& rows);
