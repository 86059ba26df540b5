/* Prints a row of Pascal's triangle at each tick of the timer, each row in memory of its own. */

#include <stdint.h>
#include <stdio.h>
#include <stdlib.h>

#define MTIMECMP ((volatile uint32_t *)0x02004000u)
#define MTIME ((volatile uint32_t *)0x0200bff8u)

#define TIMER_INTERRUPT 0x80000007u
#define MSTATUS_MIE 0x8u
#define MIE_MTIE 0x80u

/* A tick is 100,000 steps in `fast func`, and 10 ms on QEMU's virt, whose mtime counts at 10 MHz. */
#define INTERVAL 100000u
#define ROWS 10u

#define CSR_READ(name) ({ uint32_t value; __asm__ volatile("csrr %0, " #name : "=r"(value)); value; })
#define CSR_WRITE(name, value) __asm__ volatile("csrw " #name ", %0" : : "r"(value) : "memory")
#define CSR_SET(name, bits) __asm__ volatile("csrs " #name ", %0" : : "rK"(bits) : "memory")

/* Written by the handler alone. */
static volatile uint32_t ticks;
static uint64_t due;

/* Reads again where the low half wrapped between the two reads of the high half. */
static uint64_t time_now(void) {
    uint32_t high;
    uint32_t low;
    do {
        high = MTIME[1];
        low = MTIME[0];
    } while (MTIME[1] != high);
    return (uint64_t)high << 32 | low;
}

/* With all ones in the high half no value on the way is in the past. */
static void wake_at(uint64_t time) {
    MTIMECMP[1] = 0xffffffffu;
    MTIMECMP[0] = (uint32_t)time;
    MTIMECMP[1] = (uint32_t)(time >> 32);
}

/* It calls nothing of the library but _Exit, since printf and malloc may be at work. */
__attribute__((interrupt("machine"))) static void on_trap(void) {
    if (CSR_READ(mcause) != TIMER_INTERRUPT) {
        _Exit(2);
    }
    due += INTERVAL;
    wake_at(due);
    ticks++;
}

static void start_timer(void) {
    due = time_now() + INTERVAL;
    wake_at(due);
    CSR_WRITE(mtvec, on_trap);
    CSR_SET(mie, MIE_MTIE);
    CSR_SET(mstatus, MSTATUS_MIE);
}

/* The row after one of `length` numbers, or NULL if there is no memory. */
static uint32_t *next_row(const uint32_t *row, uint32_t length) {
    uint32_t *next = malloc((length + 1) * sizeof *next);
    for (uint32_t at = 0; next != NULL && at <= length; at++) {
        next[at] = at == 0 || at == length ? 1 : row[at - 1] + row[at];
    }
    return next;
}

int main(void) {
    uint32_t *row = NULL;
    start_timer();
    for (uint32_t length = 0; length < ROWS; length++) {
        while (ticks <= length) {
        }
        uint32_t *next = next_row(row, length);
        free(row);
        if (next == NULL) {
            return 1;
        }
        row = next;
        printf("tick %2u:", (unsigned)(length + 1));
        for (uint32_t at = 0; at <= length; at++) {
            printf("%4u", (unsigned)row[at]);
        }
        printf("\n");
    }
    free(row);
    return 0;
}
