#include "files/soak.h"

#include "base/text.h"
#include "files/assembly.h"

Draws::Draws(uint64_t seed, uint64_t stream) : state_(0), increment_(stream << 1 | 1) {
    state_ = seed + increment_;
    step();
}

uint32_t Draws::next() {
    uint64_t state = state_;
    step();
    uint32_t rotation = (uint32_t)(state >> 59);
    uint32_t word = (uint32_t)((state >> 18 ^ state) >> 27);
    return word >> rotation | word << (-rotation & 31);
}

const char* const soak_machine =
    "version = 1\n[core]\nfetch = 4\ncommit = 4\nfront = 5\nwindow = 64\nstations = 32\n"
    "[alu]\ncount = 3\n[mul]\nlatency = 3\n[div]\nlatency = 20\n[mem]\ncount = 2\nlatency = 2\n"
    "[predictor]\nkind = \"gshare\"\ncounters = 4096\nhistory = 12\ntargets = 512\n"
    "[icache]\nways = 4\n[dcache]\nways = 4\n";

namespace {

using namespace assembly;
using Words = std::vector<uint32_t>;

constexpr uint32_t image_base = 0x80000000u;
constexpr uint32_t mstatus = 0x300, mie = 0x304, mtvec = 0x305, mepc = 0x341, mcause = 0x342;
// x5 to x12 hold data; x13 and x14 are for a block itself; x20 is the address of data, x22 that of
// mtimecmp, and x28 the handler's own.
constexpr uint32_t first_data = 5, last_data = 12;

uint32_t data_register(Draws& draws) {
    return first_data + draws.below(8);
}

// A handler that skips what trapped, and after a timer interrupt asks for the next one.
void add_handler(Words& words) {
    words.insert(words.end(), {jal(0, 44), csrrs(28, mcause, 0), blt(28, 0, 20), csrrs(28, mepc, 0),
                               addi(28, 28, 4), csrrw(0, mepc, 28), mret, lw(28, 0, 22),
                               addi(28, 28, 1000), sw(28, 0, 22), mret});
}

void add_start(Words& words, Draws& draws) {
    words.insert(words.end(), {auipc(5, 0), addi(5, 5, -40), csrrw(0, mtvec, 5), lui(20, 0x80800),
                               lui(22, 0x02004), addi(6, 0, 1000), sw(6, 0, 22), sw(0, 4, 22),
                               addi(6, 0, 128), csrrs(0, mie, 6), csrrsi(0, mstatus, 8)});
    for (uint32_t data = first_data; data <= last_data; data++)
        words.push_back(addi(data, 0, (int32_t)draws.below(2048)));
}

void add_arithmetic(Words& words, Draws& draws) {
    // ADD, SUB, XOR, OR, SLTU, MUL, DIVU, SLL
    static const uint32_t funct7[] = {0, 0x20, 0, 0, 0, 1, 1, 0};
    static const uint32_t funct3[] = {0, 0, 4, 6, 3, 0, 5, 1};
    for (int k = 0; k < 8; k++) {
        uint32_t kind = draws.below(8), rd = data_register(draws);
        uint32_t rs1 = data_register(draws), rs2 = data_register(draws);
        words.push_back(compute(funct7[kind], funct3[kind], rd, rs1, rs2));
    }
}

// A branch that depends on data.
void add_branch(Words& words, Draws& draws) {
    uint32_t data = data_register(draws), number = draws.next();
    words.insert(words.end(),
                 {andi(13, data, 1), bne(13, 0, 8), addi(data, data, (int32_t)(number % 2048))});
}

// A store and a load of the same place.
void add_memory(Words& words, Draws& draws) {
    uint32_t place = data_register(draws), stored = data_register(draws);
    uint32_t loaded = data_register(draws);
    words.insert(words.end(),
                 {andi(13, place, 2044), add(13, 13, 20), sw(stored, 0, 13), lw(loaded, 0, 13)});
}

void add_loop(Words& words, Draws& draws) {
    uint32_t rounds = 1 + draws.below(8), sum = data_register(draws), data = data_register(draws);
    words.insert(words.end(), {addi(14, 0, (int32_t)rounds), add(sum, sum, data), addi(14, 14, -1),
                               bne(14, 0, -8)});
}

void add_call(Words& words, Draws& draws) {
    uint32_t first = data_register(draws), second = data_register(draws);
    words.insert(words.end(),
                 {jal(1, 8), jal(0, 12), exclusive_or(first, first, second), jalr(0, 0, 1)});
}

void add_block(Words& words, Draws& draws) {
    switch (draws.below(6)) {
        case 0: return add_arithmetic(words, draws);
        case 1: return add_branch(words, draws);
        case 2: return add_memory(words, draws);
        case 3: return add_loop(words, draws);
        case 4: return add_call(words, draws);
        default: words.push_back(ecall);
    }
}

}  // namespace

Image soak_image(uint64_t seed, uint32_t blocks) {
    Draws draws(seed, 1);
    Words words;
    add_handler(words);
    add_start(words, draws);
    for (uint32_t k = 0; k < blocks; k++)
        add_block(words, draws);
    // A pass is stored to the finisher.
    words.insert(words.end(), {lui(6, 0x100), lui(7, 5), addi(7, 7, 0x555), sw(7, 0, 6)});
    Segment segment{0, image_base, (uint32_t)words.size() * 4, true, ""};
    for (uint32_t word : words)
        add_little_endian(segment.bytes, word, 4);
    return Image{image_base, {segment}};
}
