/* Sorts 1,024 words in a heap. CHOICE says how the larger of two children is chosen. */

#include <stdbool.h>
#include <stddef.h>
#include <stdint.h>

#define FINISHER ((volatile uint32_t *)0x00100000u)

#define BY_BRANCH 0     /* a branch that nobody can foresee */
#define BY_ARITHMETIC 1 /* its place is computed, and its value loaded once more */
#define BY_SELECTION 2  /* place and value are computed */

enum { WORDS = 1024 };

static uint32_t words[WORDS];

/* Called by start.S with what main returned. */
__attribute__((noreturn)) void finish(int failure) {
    *FINISHER = failure == 0 ? 0x5555u : ((uint32_t)failure << 16 | 0x3333u);
    for (;;) {
    }
}

/* Of Numerical Recipes; the program needs the same numbers each time, not good ones. */
static uint32_t draw(uint32_t last) {
    return last * 1664525u + 1013904223u;
}

/* Moves the hole down to where the value belongs that stood in it. */
__attribute__((noinline)) static void sift_down(uint32_t *heap, size_t hole, size_t length) {
    uint32_t value = heap[hole];
    size_t child = 2 * hole + 1;
    while (child + 1 < length) {
#if CHOICE == BY_BRANCH
        if (heap[child] < heap[child + 1]) {
            child++;
        }
        uint32_t larger = heap[child];
#elif CHOICE == BY_ARITHMETIC
        child += heap[child] < heap[child + 1];
        uint32_t larger = heap[child];
#else
        uint32_t left = heap[child], right = heap[child + 1];
        uint32_t is_right = left < right;
        child += is_right;
        uint32_t larger = left ^ ((left ^ right) & -is_right);
#endif
        if (larger <= value) {
            break;
        }
        heap[hole] = larger;
        hole = child;
        child = 2 * hole + 1;
    }
    if (child + 1 == length && heap[child] > value) {
        heap[hole] = heap[child];
        hole = child;
    }
    heap[hole] = value;
}

__attribute__((noinline)) static void heap_sort(uint32_t *items, size_t length) {
    for (size_t hole = length / 2; hole-- > 0;) {
        sift_down(items, hole, length);
    }
    while (length-- > 1) {
        uint32_t largest = items[0];
        items[0] = items[length];
        items[length] = largest;
        sift_down(items, 0, length);
    }
}

__attribute__((noinline)) static void fill(uint32_t *items, size_t length) {
    uint32_t state = 1;
    for (size_t at = 0; at < length; at++) {
        items[at] = state = draw(state);
    }
}

__attribute__((noinline)) static bool is_sorted(const uint32_t *items, size_t length) {
    for (size_t at = 1; at < length; at++) {
        if (items[at] < items[at - 1]) {
            return false;
        }
    }
    return true;
}

int main(void) {
    fill(words, WORDS);
    heap_sort(words, WORDS);
    return is_sorted(words, WORDS) ? 0 : 1;
}
