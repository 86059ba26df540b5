#include "pipeline/caches.h"

bool CacheCounts::operator==(const CacheCounts& other) const {
    for (auto column : cache_columns)
        if (this->*column != other.*column) return false;
    return true;
}

uint32_t Caches::access_second_level(uint32_t address) {
    std::optional<uint32_t> dropped;
    counts.l2_accesses++;
    if (l2_.access(address, false, dropped)) return l2_hit_;
    counts.l2_misses++;
    return l2_miss_;
}

uint32_t Caches::fetch(uint32_t address) {
    if (!icache_.is_there()) return 0;
    std::optional<uint32_t> dropped;
    counts.icache_accesses++;
    if (icache_.access(address, false, dropped)) return 0;
    counts.icache_misses++;
    return l2_.is_there() ? access_second_level(address) : icache_miss_;
}

// A dirty line that leaves is written after its successor was read.
uint32_t Caches::access_data(uint32_t address, bool is_store) {
    if (!dcache_.is_there()) return 0;
    std::optional<uint32_t> dropped;
    counts.dcache_accesses++;
    if (dcache_.access(address, is_store, dropped)) return 0;
    counts.dcache_misses++;
    if (dropped) counts.writebacks++;
    if (!l2_.is_there()) return dcache_miss_;
    uint32_t cycles = access_second_level(address);
    if (dropped) access_second_level(*dropped);
    return cycles;
}
