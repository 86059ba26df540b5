/* main and the handler of the timer add to the same counter. main's `events++` is a load, an addition and a store. What
   the handler adds between the load and the store is lost: main stores what it loaded before. */

#include "firmware.h"

/* Chosen so that under `fast func` each interrupt meets main's loop at the same place, where nothing is lost. */
#define INTERVAL 996u
#define ROUNDS 5000u

/* Changed by both. */
static volatile uint32_t events;

/* Changed by the handler alone. */
static volatile uint32_t ticks;
static uint32_t due;

__attribute__((interrupt("machine"), aligned(4))) static void on_timer(void) {
    if ((CSR_READ(mcause) & FROM_INTERRUPT) == 0) {
        report_trap();
    }
    due += INTERVAL;
    MTIMECMP[0] = due;
    ticks++;
    events++;
}

void on_trap(void) {
    report_trap();
}

/* Returns how many events were lost. */
int main(void) {
    CSR_WRITE(mtvec, on_timer);
    due = INTERVAL;
    MTIMECMP[0] = due;
    MTIMECMP[1] = 0;
    CSR_SET(mie, MIE_MTIE);
    CSR_SET(mstatus, MSTATUS_MIE);
    for (uint32_t i = 0; i < ROUNDS; i++) {
        events++;
    }
    CSR_CLEAR(mstatus, MSTATUS_MIE);
    put_value('t', ticks, ' ');
    put_value('e', events, '\n');
    return (int)(ROUNDS + ticks - events);
}
