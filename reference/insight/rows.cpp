#include "insight/rows.h"

#include <algorithm>
#include <cinttypes>

#include "base/text.h"

uint64_t Row::cycles() const {
    uint64_t sum = 0;
    for (uint64_t cycles : spent)
        sum += cycles;
    return sum;
}

bool Row::has_counts() const {
    return (retired | exceptions | fetched | squashed | mispredicted | cycles()) != 0 ||
           !(caches == CacheCounts());
}

void Row::add(const Row& other) {
    retired += other.retired;
    exceptions += other.exceptions;
    taken += other.taken;
    fetched += other.fetched;
    squashed += other.squashed;
    mispredicted += other.mispredicted;
    for (auto column : cache_columns)
        caches.*column += other.caches.*column;
    for (unsigned k = 0; k < cause_count; k++)
        spent[k] += other.spent[k];
}

Row& Rows::at(uint32_t address) {
    uint32_t word;
    bool is_text = !(address & 3) && memory_.fetch(address, word);
    return is_text ? rows_[address] : other_;
}

std::vector<std::pair<std::string, const Row*>> Rows::counted() const {
    std::vector<std::pair<std::string, const Row*>> counted;
    for (const auto& [address, row] : rows_)
        if (row.has_counts()) counted.emplace_back(formatted("%08x", address), &row);
    std::sort(counted.begin(), counted.end());
    if (other_.has_counts()) counted.emplace_back("other", &other_);
    return counted;
}

Row Rows::total() const {
    Row total = other_;
    for (const auto& entry : rows_)
        total.add(entry.second);
    return total;
}

namespace {

std::string column(uint64_t count) {
    return formatted(",%" PRIu64, count);
}

}  // namespace

std::string profile_text(const Rows& rows) {
    std::string text =
        "address,word,retired,exceptions,taken,fetched,squashed,mispredicted,icache_accesses,"
        "icache_misses,dcache_accesses,dcache_misses,l2_accesses,l2_misses,writebacks,cycles";
    for (unsigned k = 0; k < cause_count; k++)
        text += std::string(",") + cause_name((CycleCause)k);
    text += "\n";
    for (const auto& [name, row] : rows.counted()) {
        text += name + formatted(",%08x", row->word) + column(row->retired) +
                column(row->exceptions) + column(row->taken) + column(row->fetched) +
                column(row->squashed) + column(row->mispredicted);
        for (auto field : cache_columns)
            text += column(row->caches.*field);
        text += column(row->cycles());
        for (uint64_t cycles : row->spent)
            text += column(cycles);
        text += "\n";
    }
    return text;
}

std::string count_text(const Rows& rows) {
    std::string text = "address,word,retired,exceptions,taken\n";
    for (const auto& [name, row] : rows.counted())
        text += name + formatted(",%08x", row->word) + column(row->retired) +
                column(row->exceptions) + column(row->taken) + "\n";
    return text;
}
