#include "insight/sight.h"

namespace {

void see_pipeline(const Pipeline& machine, Sight& sight) {
    sight.cycle = machine.cycle;
    sight.retired = machine.state.csrs.retired;
    sight.counts = machine.counts;
    sight.end = machine.ending.end;
    sight.resume = machine.resume;
    sight.missing.reset();
    if (machine.is_paid) sight.missing = machine.fetch_address;
    sight.window.clear();
}

Shown shown(const Record& record, Progress progress, uint64_t until) {
    Shown shown;
    shown.address = record.address;
    shown.word = record.word;
    shown.predicted = record.predicted;
    shown.instruction = record.instruction;
    shown.is_fetchable = record.instruction.operation != Operation::Illegal ||
                         record.cause == Cause::IllegalInstruction;
    shown.since = record.since;
    shown.progress = progress;
    shown.until = until;
    shown.next = record.next;
    shown.access = record.access;
    shown.spot = record.spot;
    shown.access_address = record.access_address;
    shown.cause = record.cause;
    return shown;
}

}  // namespace

void see(const Monolithic& machine, Sight& sight) {
    see_pipeline(machine, sight);
    for (uint32_t place = 0; place < machine.window_size(); place++) {
        const Record& record = machine.record_at(place);
        static const Progress progress[] = {Progress::Waiting, Progress::Executing, Progress::Done};
        sight.window.push_back(shown(record, progress[(int)record.stage], record.until));
    }
}

void see(const InOrder& machine, Sight& sight) {
    see_pipeline(machine, sight);
    static const Progress progress[] = {Progress::Waiting, Progress::Executing, Progress::Accessing,
                                        Progress::Done};
    for (Place place : {Place::Write, Place::Memory, Place::Execute, Place::Decode}) {
        const auto& record = machine.in(place);
        if (!record) continue;
        sight.window.push_back(shown(*record, progress[(int)place], machine.cycle + record->wait));
    }
}
