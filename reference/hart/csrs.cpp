#include "hart/csrs.h"

bool Csrs::operator==(const Csrs& other) const {
    return mie == other.mie && mpie == other.mpie && mtie == other.mtie && mtvec == other.mtvec &&
           mscratch == other.mscratch && mepc == other.mepc && mcause == other.mcause &&
           mtval == other.mtval && retired == other.retired;
}

uint32_t Csrs::enter_trap(uint32_t cause, uint32_t address, uint32_t trap_value) {
    mpie = mie;
    mie = false;
    mcause = cause;
    mtval = trap_value;
    mepc = address & ~3u;
    uint32_t base = mtvec & ~3u;
    bool is_vectored = mtvec & 1;
    return cause == timer_interrupt && is_vectored ? base + 4 * (timer_interrupt & 0xFF) : base;
}

uint32_t Csrs::leave_trap() {
    mie = mpie;
    mpie = true;
    return mepc;
}

void Csrs::write(uint32_t csr, uint32_t value) {
    switch (csr) {
        case 0x300:
            mpie = value >> 7 & 1;
            mie = value >> 3 & 1;
            break;
        case 0x304: mtie = value >> 7 & 1; break;
        case 0x305: mtvec = value & ~2u; break;
        case 0x340: mscratch = value; break;
        case 0x341: mepc = value & ~3u; break;
        case 0x342: mcause = value; break;
        case 0x343: mtval = value; break;
    }
}

std::optional<uint32_t> csr_value(const Csrs& csrs, uint32_t csr, uint64_t time, uint64_t compare) {
    switch (csr) {
        case 0x300: return csrs.mstatus();
        case 0x304: return csrs.enabled();
        case 0x305: return csrs.mtvec;
        case 0x340: return csrs.mscratch;
        case 0x341: return csrs.mepc;
        case 0x342: return csrs.mcause;
        case 0x343: return csrs.mtval;
        case 0x344: return time >= compare ? 0x80 : 0;  // mip
        case 0xB00:                                     // mcycle, cycle, time
        case 0xC00:
        case 0xC01: return (uint32_t)time;
        case 0xB80:
        case 0xC80:
        case 0xC81: return (uint32_t)(time >> 32);
        case 0xB02:  // minstret, instret
        case 0xC02: return (uint32_t)csrs.retired;
        case 0xB82:
        case 0xC82: return (uint32_t)(csrs.retired >> 32);
        case 0x301:  // misa, mstatush, mcountinhibit, pmpcfg0, pmpaddr0
        case 0x310:
        case 0x320:
        case 0x3A0:
        case 0x3B0:
        case 0xF11:  // mvendorid, marchid, mimpid, mhartid, mconfigptr
        case 0xF12:
        case 0xF13:
        case 0xF14:
        case 0xF15: return 0;
        default: return std::nullopt;
    }
}

namespace {

bool is_swap(const Instruction& instruction) {
    return instruction.kind == 1 || instruction.kind == 5;
}

bool is_read_only(uint32_t csr) {
    return (csr & 0xC00) == 0xC00;
}

bool shows_time(uint32_t csr) {
    switch (csr) {
        case 0x344:
        case 0xB00:
        case 0xB80:
        case 0xC00:
        case 0xC80:
        case 0xC01:
        case 0xC81: return true;
        default: return false;
    }
}

}  // namespace

bool writes_csr(const Instruction& instruction) {
    return is_swap(instruction) || instruction.rs1 != 0;
}

bool reads_csr(const Instruction& instruction) {
    return !(is_swap(instruction) && instruction.rd == 0);
}

std::optional<CsrAccess> csr_access(const Csrs& csrs, const Instruction& instruction,
                                    uint32_t source, uint64_t time, uint64_t compare) {
    std::optional<uint32_t> old = csr_value(csrs, instruction.csr, time, compare);
    if (!old || (writes_csr(instruction) && is_read_only(instruction.csr))) return std::nullopt;
    uint32_t operand = instruction.kind >= 5 ? instruction.rs1 : source;
    uint32_t value = reads_csr(instruction) ? *old : 0;
    switch (instruction.kind & 3) {
        case 1: return CsrAccess{value, operand};
        case 2: return CsrAccess{value, *old | operand};
        default: return CsrAccess{value, *old & ~operand};
    }
}

bool reads_time(const Instruction& instruction) {
    return shows_time(instruction.csr) && reads_csr(instruction) &&
           csr_access(Csrs(), instruction, 0, 0, 0).has_value();
}
