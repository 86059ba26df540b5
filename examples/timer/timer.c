/* Sleeps until the timer interrupt wakes it, and prints a line for each of ten ticks. */

#include <stdbool.h>
#include <stdint.h>

#define UART ((volatile uint8_t *)0x10000000u)
#define FINISHER ((volatile uint32_t *)0x00100000u)
#define MTIMECMP ((volatile uint32_t *)0x02004000u)
#define MTIME ((volatile uint32_t *)0x0200bff8u)

enum { UART_DATA = 0, UART_LCR = 3, UART_LSR = 5 };
enum { LCR_8N1 = 0x03, LCR_LATCH = 0x80, LSR_THR_EMPTY = 0x20 };

#define TIMER_INTERRUPT 0x80000007u
#define MSTATUS_MIE 0x8u
#define MIE_MTIE 0x80u

/* A tick is 100,000 steps in `fast func`, and 10 ms on QEMU's virt, whose mtime counts at 10 MHz. */
#define INTERVAL 100000u
#define TICKS 10u

#define CSR_READ(name) ({ uint32_t value; __asm__ volatile("csrr %0, " #name : "=r"(value)); value; })
#define CSR_WRITE(name, value) __asm__ volatile("csrw " #name ", %0" : : "r"(value) : "memory")
#define CSR_SET(name, bits) __asm__ volatile("csrs " #name ", %0" : : "rK"(bits) : "memory")
#define CSR_CLEAR(name, bits) __asm__ volatile("csrc " #name ", %0" : : "rK"(bits) : "memory")

/* Written by the handler; main reads it with interrupts off. */
static volatile unsigned int ticks;

/* When the next tick is due; after the start the handler alone uses it. */
static uint64_t due;

/* Called by start.S with what main returned. */
__attribute__((noreturn)) void finish(int failure) {
    *FINISHER = failure == 0 ? 0x5555u : ((uint32_t)failure << 16 | 0x3333u);
    for (;;) {
    }
}

/* A divisor of 1 and words of eight bits: a real 16550 wants both before its first byte. */
static void uart_open(void) {
    UART[UART_LCR] = LCR_LATCH;
    UART[UART_DATA] = 1;
    UART[UART_DATA + 1] = 0;
    UART[UART_LCR] = LCR_8N1;
}

static void put(char c) {
    while ((UART[UART_LSR] & LSR_THR_EMPTY) == 0) {
    }
    UART[UART_DATA] = (uint8_t)c;
}

static void put_text(const char *text) {
    while (*text != 0) {
        put(*text++);
    }
}

static void put_decimal(unsigned int n) {
    if (n >= 10) {
        put_decimal(n / 10);
    }
    put((char)('0' + n % 10));
}

/* Reads again where the low half wrapped between the two reads of the high half. */
static uint64_t time_now(void) {
    uint32_t high;
    uint32_t low;
    do {
        high = MTIME[1];
        low = MTIME[0];
    } while (MTIME[1] != high);
    return (uint64_t)high << 32 | low;
}

/* With all ones in the high half no value on the way is in the past. */
static void wake_at(uint64_t time) {
    MTIMECMP[1] = 0xffffffffu;
    MTIMECMP[0] = (uint32_t)time;
    MTIMECMP[1] = (uint32_t)(time >> 32);
}

/* The attribute saves and restores the registers it uses, and returns by MRET. */
__attribute__((interrupt("machine"))) static void on_trap(void) {
    if (CSR_READ(mcause) != TIMER_INTERRUPT) {
        finish(2);
    }
    /* Counted from the last due time, not from now: a late tick delays no other. */
    due += INTERVAL;
    wake_at(due);
    ticks++;
}

/* Interrupts are off between the test and WFI, so no tick comes between them and is slept through: WFI wakes for a
   pending interrupt all the same, and it is taken once they are on. */
static void wait_for(unsigned int tick) {
    CSR_CLEAR(mstatus, MSTATUS_MIE);
    while (ticks < tick) {
        __asm__ volatile("wfi" : : : "memory");
        CSR_SET(mstatus, MSTATUS_MIE);
        CSR_CLEAR(mstatus, MSTATUS_MIE);
    }
    CSR_SET(mstatus, MSTATUS_MIE);
}

int main(void) {
    uint64_t start = time_now();
    bool early = false;

    uart_open();
    due = start + INTERVAL;
    wake_at(due);
    CSR_WRITE(mtvec, on_trap);
    CSR_SET(mie, MIE_MTIE);

    for (unsigned int tick = 1; tick <= TICKS; tick++) {
        wait_for(tick);
        early |= time_now() - start < (uint64_t)tick * INTERVAL;
        put_text("tick ");
        put_decimal(tick);
        put('\n');
    }
    put_text(early ? "A tick came early.\n" : "No tick came early.\n");
    return early ? 1 : 0;
}
