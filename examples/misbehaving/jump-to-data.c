/* Calls what lies in its data. The bytes are instructions, and the data segment may be read and written, but not
   executed: the fetch traps. */

#include "firmware.h"

/* LI a0, 0; RET. */
static volatile uint32_t copied[2] = { 0x00000513u, 0x00008067u };

void on_trap(void) {
    report_trap();
}

int main(void) {
    put_value('d', (uint32_t)copied, '\n');
    uint32_t (*call)(void) = (uint32_t (*)(void))(uintptr_t)copied;
    return (int)call();
}
