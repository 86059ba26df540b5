// The target description. Without the line on the ABI gdb takes a program for one of GNU/Linux, and
// steps by breakpoints of its own.
#include "base/text.h"
#include "debugger/gdb_session.h"

namespace {

struct Described {
    unsigned number;
    const char *name, *type;
};

constexpr unsigned first_csr_number = 65;

const char* const abi_names[] = {
    "zero", "ra", "sp", "gp", "tp",  "t0",  "t1", "t2", "fp", "s1", "a0",
    "a1",   "a2", "a3", "a4", "a5",  "a6",  "a7", "s2", "s3", "s4", "s5",
    "s6",   "s7", "s8", "s9", "s10", "s11", "t3", "t4", "t5", "t6",
};

// (An address in a CSR can be a breakpoint's, so their values have no sign.)
const Described csrs[] = {
    {0x300, "mstatus", "uint32"},   {0x301, "misa", "uint32"},
    {0x304, "mie", "uint32"},       {0x305, "mtvec", "code_ptr"},
    {0x310, "mstatush", "uint32"},  {0x320, "mcountinhibit", "uint32"},
    {0x340, "mscratch", "uint32"},  {0x341, "mepc", "code_ptr"},
    {0x342, "mcause", "uint32"},    {0x343, "mtval", "uint32"},
    {0x344, "mip", "uint32"},       {0x3A0, "pmpcfg0", "uint32"},
    {0x3B0, "pmpaddr0", "uint32"},  {0xB00, "mcycle", "uint32"},
    {0xB02, "minstret", "uint32"},  {0xB80, "mcycleh", "uint32"},
    {0xB82, "minstreth", "uint32"}, {0xC00, "cycle", "uint32"},
    {0xC01, "time", "uint32"},      {0xC02, "instret", "uint32"},
    {0xC80, "cycleh", "uint32"},    {0xC81, "timeh", "uint32"},
    {0xC82, "instreth", "uint32"},  {0xF11, "mvendorid", "uint32"},
    {0xF12, "marchid", "uint32"},   {0xF13, "mimpid", "uint32"},
    {0xF14, "mhartid", "uint32"},   {0xF15, "mconfigptr", "uint32"},
};

std::string register_line(const Described& described) {
    return formatted("<reg name=\"%s\" bitsize=\"32\" type=\"%s\" regnum=\"%u\"/>\n",
                     described.name, described.type, described.number);
}

// What gdb takes the value of a register of the CPU for.
const char* type_of(unsigned number) {
    switch (number) {
        case 1:
        case 32: return "code_ptr";
        case 2:
        case 3:
        case 4:
        case 8: return "data_ptr";
        default: return "int";
    }
}

}  // namespace

std::string gdb_target_description() {
    std::string text =
        "<?xml version=\"1.0\"?>\n<!DOCTYPE target SYSTEM \"gdb-target.dtd\">\n"
        "<target version=\"1.0\">\n<architecture>riscv:rv32</architecture>\n"
        "<osabi>none</osabi>\n<feature name=\"org.gnu.gdb.riscv.cpu\">\n";
    for (unsigned number = 0; number < 32; number++)
        text += register_line({number, abi_names[number], type_of(number)});
    text += register_line({32, "pc", type_of(32)});
    text += "</feature>\n<feature name=\"org.gnu.gdb.riscv.csr\">\n";
    for (const Described& csr : csrs)
        text += register_line({first_csr_number + csr.number, csr.name, csr.type});
    return text + "</feature>\n</target>\n";
}
