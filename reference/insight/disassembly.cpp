#include "insight/disassembly.h"

#include "base/text.h"
#include "hart/instruction.h"

namespace {

struct CsrName {
    uint32_t csr;
    const char* name;
};

const CsrName csr_names[] = {
    {0x300, "mstatus"},   {0x301, "misa"},          {0x304, "mie"},      {0x305, "mtvec"},
    {0x310, "mstatush"},  {0x320, "mcountinhibit"}, {0x340, "mscratch"}, {0x341, "mepc"},
    {0x342, "mcause"},    {0x343, "mtval"},         {0x344, "mip"},      {0x3A0, "pmpcfg0"},
    {0x3B0, "pmpaddr0"},  {0xB00, "mcycle"},        {0xB80, "mcycleh"},  {0xB02, "minstret"},
    {0xB82, "minstreth"}, {0xC00, "cycle"},         {0xC80, "cycleh"},   {0xC01, "time"},
    {0xC81, "timeh"},     {0xC02, "instret"},       {0xC82, "instreth"}, {0xF11, "mvendorid"},
    {0xF12, "marchid"},   {0xF13, "mimpid"},        {0xF14, "mhartid"},  {0xF15, "mconfigptr"},
};

std::string csr_text(uint32_t csr) {
    for (const CsrName& row : csr_names)
        if (row.csr == csr) return row.name;
    return formatted("0x%x", csr);
}

// Mnemonics by the field funct3.
const char* const branches[] = {"beq", "bne", "", "", "blt", "bge", "bltu", "bgeu"};
const char* const loads[] = {"lb", "lh", "lw", "", "lbu", "lhu", "", ""};
const char* const stores[] = {"sb", "sh", "sw"};
const char* const immediates[] = {"addi", "slli", "slti", "sltiu", "xori", "srli", "ori", "andi"};
const char* const registers[] = {"add", "sll", "slt", "sltu", "xor", "srl", "or", "and"};
const char* const products[] = {"mul", "mulh", "mulhsu", "mulhu", "div", "divu", "rem", "remu"};
const char* const csr_forms[] = {"", "csrrw", "csrrs", "csrrc", "", "csrrwi", "csrrsi", "csrrci"};

// What a FENCE orders: input, output, reads and writes, of its predecessors and its successors.
std::string fence_set(uint32_t bits) {
    std::string text;
    for (int k = 3; k >= 0; k--)
        if (bits >> k & 1) text += "wroi"[k];
    return text.empty() ? "0" : text;
}

std::string immediate_text(const Instruction& i) {
    const char* name = i.is_alternative ? "srai" : immediates[i.kind];
    bool is_shift = i.kind == 1 || i.kind == 5;
    return is_shift ? formatted("%s x%u,x%u,0x%x", name, i.rd, i.rs1, i.immediate)
                    : formatted("%s x%u,x%u,%d", name, i.rd, i.rs1, (int32_t)i.immediate);
}

std::string register_text(const Instruction& i) {
    const char* name = registers[i.kind];
    if (i.is_alternative) name = i.kind == 0 ? "sub" : "sra";
    if (i.operation == Operation::MulDiv) name = products[i.kind];
    return formatted("%s x%u,x%u,x%u", name, i.rd, i.rs1, i.rs2);
}

std::string csr_instruction_text(const Instruction& i) {
    std::string operand = i.kind < 4 ? formatted(",x%u", i.rs1) : formatted(",%u", i.rs1);
    return formatted("%s x%u,", csr_forms[i.kind], i.rd) + csr_text(i.csr) + operand;
}

}  // namespace

std::string word_text(uint32_t address, uint32_t word) {
    Instruction i = decode(word);
    int32_t offset = (int32_t)i.immediate;
    uint32_t target = address + i.immediate;
    switch (i.operation) {
        case Operation::Illegal: return formatted(".word 0x%08x", word);
        case Operation::Lui: return formatted("lui x%u,0x%x", i.rd, i.immediate >> 12);
        case Operation::Auipc: return formatted("auipc x%u,0x%x", i.rd, i.immediate >> 12);
        case Operation::Jal: return formatted("jal x%u,%x", i.rd, target);
        case Operation::Jalr: return formatted("jalr x%u,%d(x%u)", i.rd, offset, i.rs1);
        case Operation::Branch:
            return formatted("%s x%u,x%u,%x", branches[i.kind], i.rs1, i.rs2, target);
        case Operation::Load:
            return formatted("%s x%u,%d(x%u)", loads[i.kind], i.rd, offset, i.rs1);
        case Operation::Store:
            return formatted("%s x%u,%d(x%u)", stores[i.kind], i.rs2, offset, i.rs1);
        case Operation::Immediate: return immediate_text(i);
        case Operation::Register:
        case Operation::MulDiv: return register_text(i);
        case Operation::Fence:
            return "fence " + fence_set(word >> 24 & 15) + "," + fence_set(word >> 20 & 15);
        case Operation::FenceI: return "fence.i";
        case Operation::Ecall: return "ecall";
        case Operation::Ebreak: return "ebreak";
        case Operation::Mret: return "mret";
        case Operation::Wfi: return "wfi";
        case Operation::Csr: return csr_instruction_text(i);
    }
    return "";
}
