/* Calls itself until the stack leaves RAM. Where the stack stands last it runs over data and text on its way. */

#include "firmware.h"

volatile uint32_t guard = 0x600df00du;

/* Four words and a return address, all of which are written. */
__attribute__((noinline)) static uint32_t deeper(uint32_t depth) {
    volatile uint32_t frame[4];

    for (int i = 0; i < 4; i++) {
        frame[i] = depth;
    }
    return depth == 0 ? 0 : deeper(depth + 1) + frame[0];
}

/* The guard is told too. */
void on_trap(void) {
    put_value('g', guard, ' ');
    report_trap();
}

int main(void) {
    return (int)deeper(1);
}
