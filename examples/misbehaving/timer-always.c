/* mtimecmp stays 0, so that the timer interrupt is always pending, and its handler returns without a change. */

#include "firmware.h"

static volatile uint32_t interrupts;

__attribute__((interrupt("machine"), aligned(4))) static void on_timer(void) {
    interrupts++;
}

void on_trap(void) {
    report_trap();
}

int main(void) {
    CSR_WRITE(mtvec, on_timer);
    MTIMECMP[1] = 0;
    MTIMECMP[0] = 0;
    CSR_SET(mie, MIE_MTIE);
    CSR_SET(mstatus, MSTATUS_MIE);
    for (uint32_t i = 0; i < 1000; i++) {
        __asm__ volatile("" : : : "memory");
    }
    return 0;
}
