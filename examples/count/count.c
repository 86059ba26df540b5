/* Reads the console to its end, counts lines, words and bytes as `wc` does, and prints the three numbers. */

#define CONSOLE ((volatile unsigned char *)0x10000000u)
#define LINE_STATUS 5u
#define DATA_READY 1u
#define FINISHER ((volatile unsigned int *)0x00100000u)

/* The next byte of the input, or -1 where none is left. */
static int next_byte(void) {
    if ((CONSOLE[LINE_STATUS] & DATA_READY) == 0) {
        return -1;
    }
    return CONSOLE[0];
}

static void put(char byte) {
    CONSOLE[0] = (unsigned char)byte;
}

/* A number in decimal, its last digit first in a small buffer. */
static void put_number(unsigned int number) {
    char digits[10];
    int count = 0;
    do {
        digits[count++] = (char)('0' + number % 10u);
        number /= 10u;
    } while (number != 0);
    while (count > 0) {
        put(digits[--count]);
    }
}

int main(void) {
    unsigned int lines = 0, words = 0, bytes = 0;
    int in_word = 0;
    for (int byte = next_byte(); byte >= 0; byte = next_byte()) {
        int is_space = byte == ' ' || (byte >= '\t' && byte <= '\r');
        bytes++;
        lines += byte == '\n';
        words += !is_space && !in_word;
        in_word = !is_space;
    }
    put_number(lines);
    put(' ');
    put_number(words);
    put(' ');
    put_number(bytes);
    put('\n');
    return 0;
}

/* Called by start.S with what main returned. */
void finish(int failure) {
    *FINISHER = failure == 0 ? 0x5555u : ((unsigned int)failure << 16 | 0x3333u);
    for (;;) {
    }
}
