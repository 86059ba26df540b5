// What the timing side says back. Definition: crates/rollback_cmds/specs/Order.antt.
#pragma once

#include <cstdint>

struct Order {
    enum class Kind : uint8_t { Set, Commit, Interrupt, Time, Stop, Sync };

    Kind kind = Kind::Commit;
    uint64_t number = 0;
    uint64_t value = 0;  // of Set an address, of Time a time

    // It opens an epoch.
    bool opens() const { return kind != Kind::Commit; }
    const char* name() const {
        static const char* const names[] = {"Set", "Commit", "Interrupt", "Time", "Stop", "Sync"};
        return names[(int)kind];
    }
};
