/* Traps three times on purpose, by ECALL, an illegal instruction and a load that nothing answers; its handler prints
   what happened and goes on behind the instruction. */

#include <stdint.h>

#define UART ((volatile uint8_t *)0x10000000u)
#define FINISHER ((volatile uint32_t *)0x00100000u)

/* Neither RAM nor a device, here and on QEMU's virt. */
#define NOWHERE 0x18000000u

enum { UART_DATA = 0, UART_LCR = 3, UART_LSR = 5 };
enum { LCR_8N1 = 0x03, LCR_LATCH = 0x80, LSR_THR_EMPTY = 0x20 };
enum { ILLEGAL_INSTRUCTION = 2, LOAD_ACCESS_FAULT = 5, MACHINE_ECALL = 11 };

#define CSR_READ(name) ({ uint32_t value; __asm__ volatile("csrr %0, " #name : "=r"(value)); value; })
#define CSR_WRITE(name, value) __asm__ volatile("csrw " #name ", %0" : : "r"(value) : "memory")

/* Written by the handler, between two instructions of main. */
static volatile unsigned int traps;

/* Called by start.S with what main returned. */
__attribute__((noreturn)) void finish(int failure) {
    *FINISHER = failure == 0 ? 0x5555u : ((uint32_t)failure << 16 | 0x3333u);
    for (;;) {
    }
}

/* A divisor of 1 and words of eight bits: a real 16550 wants both before its first byte. */
static void uart_open(void) {
    UART[UART_LCR] = LCR_LATCH;
    UART[UART_DATA] = 1;
    UART[UART_DATA + 1] = 0;
    UART[UART_LCR] = LCR_8N1;
}

static void put(char c) {
    while ((UART[UART_LSR] & LSR_THR_EMPTY) == 0) {
    }
    UART[UART_DATA] = (uint8_t)c;
}

static void put_text(const char *text) {
    while (*text != 0) {
        put(*text++);
    }
}

static void put_hex(uint32_t n) {
    for (int shift = 28; shift >= 0; shift -= 4) {
        put("0123456789abcdef"[n >> shift & 15]);
    }
}

static const char *name_of(uint32_t cause) {
    switch (cause) {
    case ILLEGAL_INSTRUCTION: return "illegal instruction";
    case LOAD_ACCESS_FAULT: return "load access fault";
    case MACHINE_ECALL: return "ecall";
    default: return 0;
    }
}

/* The attribute saves and restores the registers it uses, and returns by MRET. */
__attribute__((interrupt("machine"))) static void on_trap(void) {
    uint32_t cause = CSR_READ(mcause);
    uint32_t at = CSR_READ(mepc);
    const char *name = name_of(cause);

    put_text(name != 0 ? name : "unexpected trap");
    put_text(": mcause=");
    put_hex(cause);
    put_text(" mepc=");
    put_hex(at);
    put_text(" mtval=");
    put_hex(CSR_READ(mtval));
    put('\n');
    if (name == 0) {
        finish(2);
    }
    traps++;
    /* Every instruction of this program has four bytes. */
    CSR_WRITE(mepc, at + 4);
}

int main(void) {
    uint32_t loaded = 0x600df00du;

    uart_open();
    CSR_WRITE(mtvec, on_trap);

    put_text("Three traps:\n");
    __asm__ volatile("ecall" : : : "memory");
    /* unimp writes a counter that is read-only. */
    __asm__ volatile("unimp" : : : "memory");
    __asm__ volatile("lw %0, 0(%1)" : "+r"(loaded) : "r"(NOWHERE) : "memory");

    put_text("The load left ");
    put_hex(loaded);
    put_text(" in its register.\n");
    return traps == 3 && loaded == 0x600df00du ? 0 : 1;
}
