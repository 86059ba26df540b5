// What the two machines that hold values have in common: the committed state, how the oldest record
// leaves, and a try of fetch.
// Definitions: crates/mono_model/specs/Machine.antt, Commit.antt, Fetch.antt.
#pragma once

#include <map>
#include <vector>

#include "hart/memory.h"
#include "hart/sequential_step.h"
#include "pipeline/caches.h"
#include "pipeline/predictor.h"
#include "pipeline/record.h"

// What the phases themselves tell of each address, for the self-check of a profile.
struct PhaseWitness {
    struct Told {
        uint64_t mispredicted = 0;
        CacheCounts caches;
    };
    std::map<uint32_t, Told> told;
};

class Pipeline {
public:
    explicit Pipeline(const Setup& setup);

    const Setup& setup;
    const Parameters& parameters;
    State state;  // the committed one
    Memory memory;
    Predictor predictor;
    Caches caches;
    Counts counts;
    Ending ending;
    uint64_t cycle = 0;
    uint32_t fetch_address;
    uint64_t resume = 0;   // the cycle from which on fetch goes on after a miss
    bool is_paid = false;  // the miss of the record to fetch next was counted

    PhaseWitness* witness = nullptr;
    bool tells_commits = false;  // a line on standard error for each record that leaves

    Final final() const;

protected:
    std::optional<uint64_t> kept_time_;  // for the record to fetch next

    // How the oldest record left.
    enum class Leaving { Full, Leaves, Faults, Synchronises, Ends };
    Leaving commit_oldest(const Record& record);

    // One try of fetch: false where it misses, and appends no record.
    bool try_fetch(Record& record);

    // The end of a cycle, which may be the last one.
    void end_cycle() {
        cycle++;
        if (ending.is_running() && cycle == setup.cycles) ending.end = End::Limit;
    }

    // A flush: fetch goes on at an address.
    void redirect_fetch(uint32_t address) {
        fetch_address = address;
        resume = 0;
        is_paid = false;
    }

    // The oldest record goes back to fetch, to be given this cycle as its time.
    void keep_time() {
        kept_time_ = cycle;
        counts.replays++;
    }

    bool wants_time(const Record& record, const Outcome& outcome) const {
        return !record.time &&
               is_time_read(record.instruction, outcome.reach, outcome.address, outcome.width);
    }

    // Gives a record its result, by its outcome and the value of its first source; a function tells
    // the bytes of RAM under older stores.
    template <class LoadedBytes>
    void execute(Record& record, uint32_t source, const Outcome& outcome,
                 LoadedBytes loaded_bytes) {
        Seen seen{state, memory, setup.input, record.time};
        Result& result = record;
        result = executed(record.instruction, record.word, source, outcome, seen, loaded_bytes);
    }

    uint32_t fetch_line(uint32_t address) {
        return witnessed(address, [&] { return caches.fetch(address); });
    }
    uint32_t load_line(const Record& record) {
        return witnessed(record.address, [&] { return caches.load(record.access_address); });
    }
    void store_line(const Record& record) {
        witnessed(record.address, [&] { return caches.store(record.access_address), 0u; });
    }
    void count_misprediction(const Record& record) {
        counts.mispredicted++;
        if (witness) witness->told[record.address].mispredicted++;
    }

private:
    struct Known {
        uint32_t word = 0;  // which is no instruction, as the one beside it says
        Instruction instruction;
    };
    static constexpr uint32_t known_room = 4096;
    std::vector<Known> known_;  // decoded words by their addresses

    const Instruction& known_instruction(uint32_t address, uint32_t word);
    void tell_commit(const Record& record) const;
    void witness_access(uint32_t address, const CacheCounts& before);

    template <class Access>
    uint32_t witnessed(uint32_t address, Access access) {
        if (!witness) return access();
        CacheCounts before = caches.counts;
        uint32_t cycles = access();
        witness_access(address, before);
        return cycles;
    }
};
