/* mtvec is an address in the data segment, from where nothing can be fetched: the first trap never ends. */

#include "firmware.h"

/* MRET. */
static volatile uint32_t handler[1] __attribute__((aligned(4))) = { 0x30200073u };

void on_trap(void) {
    report_trap();
}

int main(void) {
    CSR_WRITE(mtvec, handler);
    __asm__ volatile("ecall" : : : "memory");
    return 1;
}
