/* Three kinds of work that pipelines differ in: a sort, whose branches nobody can foresee; a walk along a list, each of
   whose loads needs the one before; and a product of matrices, whose steps are independent. Each result is printed and
   held against what it has to be. */

#include <stdbool.h>
#include <stddef.h>
#include <stdint.h>

#define UART ((volatile uint8_t *)0x10000000u)
#define FINISHER ((volatile uint32_t *)0x00100000u)

enum { UART_DATA = 0, UART_LSR = 5, LSR_THR_EMPTY = 0x20 };
enum { WORDS = 1024, NODES = 1024, ROUNDS = 8, SIDE = 24 };

/* 64 bytes, a line of the caches; all nodes together are four times as large as a cache of 16 KiB. */
struct node {
    struct node *next;
    uint32_t value[15];
};

static uint32_t words[WORDS];
static struct node nodes[NODES];
static int32_t left[SIDE][SIDE], right[SIDE][SIDE], product[SIDE][SIDE];

/* Called by start.S with what main returned. */
__attribute__((noreturn)) void finish(int failure) {
    *FINISHER = failure == 0 ? 0x5555u : ((uint32_t)failure << 16 | 0x3333u);
    for (;;) {
    }
}

static void put(char c) {
    while ((UART[UART_LSR] & LSR_THR_EMPTY) == 0) {
    }
    UART[UART_DATA] = (uint8_t)c;
}

static void put_line(const char *name, uint32_t n) {
    while (*name != 0) {
        put(*name++);
    }
    put(' ');
    for (int shift = 28; shift >= 0; shift -= 4) {
        put("0123456789abcdef"[n >> shift & 15]);
    }
    put('\n');
}

/* Of Numerical Recipes; the program needs the same numbers each time, not good ones. */
static uint32_t draw(void) {
    static uint32_t state = 1;
    state = state * 1664525u + 1013904223u;
    return state;
}

static void sift_down(uint32_t *heap, size_t hole, size_t length) {
    uint32_t value = heap[hole];
    for (size_t child; (child = 2 * hole + 1) < length; hole = child) {
        if (child + 1 < length && heap[child] < heap[child + 1]) {
            child++;
        }
        if (heap[child] <= value) {
            break;
        }
        heap[hole] = heap[child];
    }
    heap[hole] = value;
}

static void heap_sort(uint32_t *items, size_t length) {
    for (size_t hole = length / 2; hole-- > 0;) {
        sift_down(items, hole, length);
    }
    while (length-- > 1) {
        uint32_t largest = items[0];
        items[0] = items[length];
        items[length] = largest;
        sift_down(items, 0, length);
    }
}

static bool is_sorted(const uint32_t *items, size_t length) {
    for (size_t at = 1; at < length; at++) {
        if (items[at] < items[at - 1]) {
            return false;
        }
    }
    return true;
}

/* Links the nodes to one ring that jumps through memory: 389 has no factor in common with their number. */
static void link_nodes(void) {
    for (size_t at = 0; at < NODES; at++) {
        nodes[at].next = &nodes[(at + 389) % NODES];
        nodes[at].value[0] = (uint32_t)at;
    }
}

static uint32_t walk(size_t steps) {
    const struct node *at = nodes;
    uint32_t sum = 0;
    while (steps-- > 0) {
        sum += at->value[0];
        at = at->next;
    }
    return sum;
}

static void multiply(void) {
    for (size_t row = 0; row < SIDE; row++) {
        for (size_t column = 0; column < SIDE; column++) {
            int32_t sum = 0;
            for (size_t at = 0; at < SIDE; at++) {
                sum += left[row][at] * right[at][column];
            }
            product[row][column] = sum;
        }
    }
}

/* The trace of left * right, summed in another order than multiply does. */
static int32_t trace_of_product(void) {
    int32_t sum = 0;
    for (size_t row = 0; row < SIDE; row++) {
        for (size_t at = 0; at < SIDE; at++) {
            sum += left[row][at] * right[at][row];
        }
    }
    return sum;
}

int main(void) {
    int32_t trace = 0;

    for (size_t at = 0; at < WORDS; at++) {
        words[at] = draw();
    }
    heap_sort(words, WORDS);
    put_line("smallest", words[0]);
    if (!is_sorted(words, WORDS)) {
        return 1;
    }

    link_nodes();
    uint32_t sum = walk(ROUNDS * NODES);
    put_line("walked", sum);
    if (sum != ROUNDS * (NODES * (NODES - 1) / 2)) {
        return 2;
    }

    for (size_t row = 0; row < SIDE; row++) {
        for (size_t column = 0; column < SIDE; column++) {
            left[row][column] = (int32_t)draw() >> 20;
            right[row][column] = (int32_t)draw() >> 20;
        }
    }
    multiply();
    for (size_t at = 0; at < SIDE; at++) {
        trace += product[at][at];
    }
    put_line("trace", (uint32_t)trace);
    return trace == trace_of_product() ? 0 : 3;
}
