/* Stores over a function of its own, calls it before a FENCE.I, and calls it behind one. */

#include "firmware.h"

uint32_t number(void);

__asm__(
    "    .text\n"
    "    .align 2\n"
    "    .globl number\n"
    "number:\n"
    "    li a0, 1\n"
    "    ret\n");

/* LI a0, 2. */
#define LOAD_2 0x00200513u

void on_trap(void) {
    report_trap();
}

int main(void) {
    volatile uint32_t *text = (volatile uint32_t *)(uintptr_t)number;

    uint32_t before = number();
    *text = LOAD_2;
    uint32_t stored = number();
    uint32_t in_ram = *text;
    __asm__ volatile("fence.i" : : : "memory");
    uint32_t fenced = number();

    put_value('b', before, ' ');
    put_value('s', stored, ' ');
    put_value('r', in_ram, ' ');
    put_value('f', fenced, '\n');
    return before == 1 && stored == 1 && in_ram == LOAD_2 && fenced == 2 ? 0 : 1;
}
