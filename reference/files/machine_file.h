// Machine files: the parameters of a pipeline.
// Definitions: crates/machine_file/specs/Table.antt, File.antt; crates/mono_model/specs/Setup.antt.
#pragma once

#include <cstdint>
#include <string>

// What a machine file gives, with the plain machine's values where it is silent.
struct Parameters {
    uint32_t version = 1;
    uint32_t ram_base = 0x80000000u, ram_size = 16777216u;
    uint32_t core_fetch = 1, core_commit = 1, core_front = 1, core_window = 1, core_stations = 256;
    uint32_t alu_count = 1, alu_latency = 1, mul_count = 1, mul_latency = 1;
    uint32_t div_count = 1, div_latency = 1, mem_count = 1, mem_latency = 1;
    uint32_t predictor_kind = 0, predictor_counters = 1024, predictor_history = 8;
    uint32_t predictor_targets = 0;
    uint32_t icache_line = 64, icache_sets = 64, icache_ways = 0, icache_miss = 20;
    uint32_t dcache_line = 64, dcache_sets = 64, dcache_ways = 0, dcache_miss = 20;
    uint32_t dcache_policy = 0;  // 1 where stores are written back
    uint32_t l2_line = 64, l2_sets = 512, l2_ways = 0, l2_hit = 10, l2_miss = 100;
};

// Why bytes are no machine file, as the line of a refusal says it.
struct MachineFault {
    std::string text;
};

// Reads a machine file, or throws its first fault.
Parameters read_machine(const std::string& bytes);
