#include "hart/state.h"

#include <algorithm>

#include "base/text.h"

bool State::operator==(const State& other) const {
    return std::equal(registers, registers + 32, other.registers) && pc == other.pc &&
           csrs == other.csrs && devices == other.devices && output == other.output;
}

// Definition: crates/mono_model/specs/Report.antt (status_text).
std::string Ending::text() const {
    switch (end) {
        case End::Pass: return "pass";
        case End::Fail: return formatted("fail %u", code);
        case End::Limit: return "limit";
        case End::OutputFull: return "output full";
        default: return "running";
    }
}

// Definition: crates/report_text/specs/FaultText.antt (status_number).
int Ending::exit_status() const {
    switch (end) {
        case End::Pass: return 0;
        case End::Fail: return 1;
        case End::Limit: return 2;
        case End::OutputFull: return 3;
        default: return 4;
    }
}

Ending ending_of(Halt halt, uint16_t code) {
    switch (halt) {
        case Halt::Pass: return Ending{End::Pass, 0};
        case Halt::Fail: return Ending{End::Fail, code};
        default: return Ending{};
    }
}

bool Counts::operator==(const Counts& other) const {
    return exceptions == other.exceptions && interrupts == other.interrupts &&
           replays == other.replays && fetched == other.fetched && squashed == other.squashed &&
           branches == other.branches && mispredicted == other.mispredicted;
}
