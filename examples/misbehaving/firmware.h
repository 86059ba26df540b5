/* What the programs of this folder share. The console and the trap report hold no text in memory, so that they work
   where the program has overwritten its own. */

#include <stdint.h>

#define UART ((volatile uint8_t *)0x10000000u)
#define FINISHER ((volatile uint32_t *)0x00100000u)
#define MTIMECMP ((volatile uint32_t *)0x02004000u)

#define MSTATUS_MIE 0x8u
#define MIE_MTIE 0x80u
#define FROM_INTERRUPT 0x80000000u

#define CSR_READ(name) ({ uint32_t value; __asm__ volatile("csrr %0, " #name : "=r"(value)); value; })
#define CSR_WRITE(name, value) __asm__ volatile("csrw " #name ", %0" : : "r"(value) : "memory")
#define CSR_CLEAR(name, bits) __asm__ volatile("csrc " #name ", %0" : : "r"(bits) : "memory")
#define CSR_SET(name, bits) __asm__ volatile("csrs " #name ", %0" : : "r"(bits) : "memory")

/* Ends the run: passed, or failed with a code. */
__attribute__((noreturn)) static inline void finish(uint32_t failure) {
    *FINISHER = failure == 0 ? 0x5555u : (failure << 16 | 0x3333u);
    for (;;) {
    }
}

static inline void put(char c) {
    *UART = (uint8_t)c;
}

static inline void put_hex(uint32_t n) {
    for (int shift = 28; shift >= 0; shift -= 4) {
        uint32_t digit = n >> shift & 15;
        put((char)(digit < 10 ? '0' + digit : 'a' + digit - 10));
    }
}

/* Prints a letter, `=` and a number, and what ends them. */
static inline void put_value(char name, uint32_t n, char end) {
    put(name);
    put('=');
    put_hex(n);
    put(end);
}

/* Prints mcause, mepc and mtval, and ends the run as failed with the cause as code. */
__attribute__((noreturn)) static inline void report_trap(void) {
    uint32_t cause = CSR_READ(mcause);
    put_value('c', cause, ' ');
    put_value('p', CSR_READ(mepc), ' ');
    put_value('v', CSR_READ(mtval), '\n');
    finish(cause & 0x7fff);
}

/* Where start.S goes from a trap, with a stack of its own. */
__attribute__((noreturn)) void on_trap(void);
