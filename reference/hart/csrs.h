// The control and status registers, trap entry and MRET.
// Definitions: crates/machine_csr/specs/Csr.antt, Trap.antt.
#pragma once

#include <cstdint>
#include <optional>

#include "hart/instruction.h"

struct Csrs {
    bool mie = false, mpie = false, mtie = false;
    uint32_t mtvec = 0, mscratch = 0, mepc = 0, mcause = 0, mtval = 0;
    uint64_t retired = 0;

    uint32_t mstatus() const { return 0x1800u | (uint32_t)mpie << 7 | (uint32_t)mie << 3; }
    uint32_t enabled() const { return (uint32_t)mtie << 7; }
    bool operator==(const Csrs& other) const;

    // The timer interrupt is enabled, and the time has come.
    bool timer_is_pending(uint64_t time, uint64_t compare) const {
        return mie && mtie && time >= compare;
    }

    // Takes a trap of the instruction at an address; the answer is the handler's address.
    uint32_t enter_trap(uint32_t cause, uint32_t address, uint32_t trap_value);

    // What MRET does; the answer is the address to which it goes.
    uint32_t leave_trap();

    // Writes a register, which keeps the bits that it has.
    void write(uint32_t csr, uint32_t value);
};

// What a read of a register shows at a time; nothing where there is no such register.
std::optional<uint32_t> csr_value(const Csrs& csrs, uint32_t csr, uint64_t time, uint64_t compare);

// CSRRW and CSRRWI always write and don't read with x0 as destination; the others always read,
// and don't write with 0 as operand.
bool writes_csr(const Instruction& instruction);
bool reads_csr(const Instruction& instruction);

// What a CSR instruction reads into its destination, and what it writes if it writes.
struct CsrAccess {
    uint32_t value, written;
};

// An access by an instruction with the value of its source; nothing where it is illegal.
std::optional<CsrAccess> csr_access(const Csrs& csrs, const Instruction& instruction,
                                    uint32_t source, uint64_t time, uint64_t compare);

// A legal CSR instruction that reads the time.
bool reads_time(const Instruction& instruction);
