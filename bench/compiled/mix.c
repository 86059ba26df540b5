/* What compiled programs do all day: a checksum byte by byte through a table, a sort of words and a product of
   matrices, each with a result that is printed and held against what it has to be. */

#include <stdbool.h>
#include <stddef.h>
#include <stdint.h>

#define UART ((volatile uint8_t *)0x10000000u)
#define FINISHER ((volatile uint32_t *)0x00100000u)

enum { UART_DATA = 0, UART_LSR = 5, LSR_THR_EMPTY = 0x20 };
enum { WORDS = 16384, SIDE = 64 };

static uint32_t words[WORDS];
static uint32_t crc_table[256];
static int32_t left[SIDE][SIDE], right[SIDE][SIDE], product[SIDE][SIDE];

/* Called by start.S with what main returned. */
__attribute__((noreturn)) void finish(int failure) {
    *FINISHER = failure == 0 ? 0x5555u : ((uint32_t)failure << 16 | 0x3333u);
    for (;;) {
    }
}

static void put(char c) {
    while ((UART[UART_LSR] & LSR_THR_EMPTY) == 0) {
    }
    UART[UART_DATA] = (uint8_t)c;
}

static void put_line(const char *name, uint32_t n) {
    while (*name != 0) {
        put(*name++);
    }
    put(' ');
    for (int shift = 28; shift >= 0; shift -= 4) {
        put("0123456789abcdef"[n >> shift & 15]);
    }
    put('\n');
}

/* Of Numerical Recipes; the program needs the same numbers each time, not good ones. */
static uint32_t draw(void) {
    static uint32_t state = 1;
    state = state * 1664525u + 1013904223u;
    return state;
}

static void make_crc_table(void) {
    for (uint32_t byte = 0; byte < 256; byte++) {
        uint32_t remainder = byte;
        for (int bit = 0; bit < 8; bit++) {
            remainder = remainder & 1 ? remainder >> 1 ^ 0xedb88320u : remainder >> 1;
        }
        crc_table[byte] = remainder;
    }
}

/* CRC-32 of IEEE 802.3. */
static uint32_t crc32(const void *data, size_t length) {
    const uint8_t *at = data;
    uint32_t crc = ~0u;
    while (length-- > 0) {
        crc = crc_table[(crc ^ *at++) & 255] ^ crc >> 8;
    }
    return ~crc;
}

static void sift_down(uint32_t *heap, size_t hole, size_t length) {
    uint32_t value = heap[hole];
    for (size_t child; (child = 2 * hole + 1) < length; hole = child) {
        if (child + 1 < length && heap[child] < heap[child + 1]) {
            child++;
        }
        if (heap[child] <= value) {
            break;
        }
        heap[hole] = heap[child];
    }
    heap[hole] = value;
}

static void heap_sort(uint32_t *items, size_t length) {
    for (size_t hole = length / 2; hole-- > 0;) {
        sift_down(items, hole, length);
    }
    while (length-- > 1) {
        uint32_t largest = items[0];
        items[0] = items[length];
        items[length] = largest;
        sift_down(items, 0, length);
    }
}

static bool is_sorted(const uint32_t *items, size_t length) {
    for (size_t at = 1; at < length; at++) {
        if (items[at] < items[at - 1]) {
            return false;
        }
    }
    return true;
}

static void multiply(void) {
    for (size_t row = 0; row < SIDE; row++) {
        for (size_t column = 0; column < SIDE; column++) {
            int32_t sum = 0;
            for (size_t at = 0; at < SIDE; at++) {
                sum += left[row][at] * right[at][column];
            }
            product[row][column] = sum;
        }
    }
}

/* The trace of left * right, summed in another order than multiply does. */
static int32_t trace_of_product(void) {
    int32_t sum = 0;
    for (size_t row = 0; row < SIDE; row++) {
        for (size_t at = 0; at < SIDE; at++) {
            sum += left[row][at] * right[at][row];
        }
    }
    return sum;
}

int main(void) {
    uint32_t sum_before = 0, sum_behind = 0;
    int32_t trace = 0;

    make_crc_table();
    if (crc32("123456789", 9) != 0xcbf43926u) {
        return 1;
    }

    for (size_t at = 0; at < WORDS; at++) {
        words[at] = draw();
        sum_before += words[at];
    }
    put_line("unsorted", crc32(words, sizeof words));
    heap_sort(words, WORDS);
    put_line("sorted", crc32(words, sizeof words));
    for (size_t at = 0; at < WORDS; at++) {
        sum_behind += words[at];
    }
    if (sum_before != sum_behind || !is_sorted(words, WORDS)) {
        return 2;
    }

    for (size_t row = 0; row < SIDE; row++) {
        for (size_t column = 0; column < SIDE; column++) {
            left[row][column] = (int32_t)draw() >> 20;
            right[row][column] = (int32_t)draw() >> 20;
        }
    }
    multiply();
    for (size_t at = 0; at < SIDE; at++) {
        trace += product[at][at];
    }
    put_line("product", crc32(product, sizeof product));
    return trace == trace_of_product() ? 0 : 3;
}
