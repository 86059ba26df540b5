/* Sends a greeting to the console, byte by byte, and ends the run as passed. */

#define CONSOLE ((volatile unsigned char *)0x10000000u)
#define FINISHER ((volatile unsigned int *)0x00100000u)

/* In .data, so that the image has a second load segment. */
static char greeting[] = "Hello from RV32I!\n";

/* In .bss, so that this segment is longer in memory than in the file. */
static unsigned int sent;

int main(void) {
    for (const char *at = greeting; *at != 0; at++) {
        *CONSOLE = (unsigned char)*at;
        sent++;
    }
    return sent == sizeof greeting - 1 ? 0 : 1;
}

/* Called by start.S with what main returned. */
void finish(int failure) {
    *FINISHER = failure == 0 ? 0x5555u : ((unsigned int)failure << 16 | 0x3333u);
    for (;;) {
    }
}
