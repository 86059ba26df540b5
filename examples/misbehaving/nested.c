/* The handler of the timer allows interrupts again before it has moved mtimecmp: it is interrupted at once, by the same
   timer, until the stack leaves RAM. */

#include "firmware.h"

/* Each level saves its registers on the stack of the one before. */
__attribute__((interrupt("machine"), aligned(4))) static void on_timer(void) {
    if ((CSR_READ(mcause) & FROM_INTERRUPT) == 0) {
        report_trap();
    }
    /* Too early. */
    CSR_SET(mstatus, MSTATUS_MIE);
    put('.');
    MTIMECMP[1] = 0xffffffffu;
}

void on_trap(void) {
    report_trap();
}

int main(void) {
    CSR_WRITE(mtvec, on_timer);
    MTIMECMP[1] = 0;
    MTIMECMP[0] = 0;
    CSR_SET(mie, MIE_MTIE);
    CSR_SET(mstatus, MSTATUS_MIE);
    return 0;
}
