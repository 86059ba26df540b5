#include "pipeline/pipeline.h"

#include <cinttypes>
#include <cstdio>

Pipeline::Pipeline(const Setup& setup)
    : setup(setup),
      parameters(setup.parameters),
      predictor(setup.parameters),
      caches(setup.parameters),
      fetch_address(setup.image.entry),
      known_(known_room) {
    state.pc = setup.image.entry;
    memory.open(parameters.ram_base, parameters.ram_size, setup.image);
}

Final Pipeline::final() const {
    Final final;
    final.ending = ending;
    final.cycles = cycle;
    final.counts = counts;
    final.caches = caches.counts;
    final.version = parameters.version;
    return final;
}

void Pipeline::witness_access(uint32_t address, const CacheCounts& before) {
    CacheCounts& told = witness->told[address].caches;
    for (auto column : cache_columns)
        told.*column += caches.counts.*column - before.*column;
}

void Pipeline::tell_commit(const Record& record) const {
    if (tells_commits)
        fprintf(stderr, "%" PRIu64 " %08x %08x\n", cycle, record.address, record.word);
}

Pipeline::Leaving Pipeline::commit_oldest(const Record& record) {
    if (lacks_room(state, record, setup.output)) {
        ending.end = End::OutputFull;
        return Leaving::Full;
    }
    tell_commit(record);
    const Instruction& instruction = record.instruction;
    Note note =
        effect(instruction, record, record.address, record.time, setup.input, state, memory);
    if (record.has_cause()) {
        counts.exceptions++;
        return Leaving::Faults;
    }
    if (record.accesses_ram(Reach::Store)) store_line(record);
    counts.branches += instruction.flow != Flow::Plain;
    predictor.train(record.address, instruction.flow, record.next);
    ending = ending_of(note.halt, note.code);
    if (!ending.is_running()) return Leaving::Ends;
    if (instruction.operation != Operation::FenceI) return Leaving::Leaves;
    memory.synchronise();
    return Leaving::Synchronises;
}

const Instruction& Pipeline::known_instruction(uint32_t address, uint32_t word) {
    Known& known = known_[address / 4 % known_room];
    if (known.word != word) known = Known{word, decode(word)};
    return known.instruction;
}

bool Pipeline::try_fetch(Record& record) {
    uint32_t address = fetch_address, word = 0;
    bool is_fetchable = !(address & 3) && memory.fetch(address, word);
    if (is_fetchable && !is_paid) {
        uint32_t cycles = fetch_line(address);
        if (cycles > 0) {
            resume = cycle + cycles;
            is_paid = true;
            return false;
        }
    }
    record = Record();
    record.address = address;
    record.word = word;
    if (is_fetchable) {
        record.instruction = known_instruction(address, word);
        if (record.instruction.operation == Operation::Illegal)
            record.fail(Cause::IllegalInstruction, word);
    } else {
        record.fail(address & 3 ? Cause::InstructionMisaligned : Cause::InstructionAccess, address);
    }
    record.since = cycle;
    record.time = kept_time_;
    kept_time_.reset();
    record.predicted = predictor.predict(address);
    counts.fetched++;
    is_paid = false;
    fetch_address = record.predicted;
    return true;
}
