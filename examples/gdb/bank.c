/* Counts visits of pages beside accounts. At the end the sum of the accounts is wrong. */

#define CONSOLE ((volatile unsigned char *)0x10000000u)
#define FINISHER ((volatile unsigned int *)0x00100000u)

struct account {
    int number;
    int balance;
};

static struct {
    struct account accounts[3];
    int visits[4];
} bank = {{{1, 50}, {2, 70}, {3, 90}}, {0, 0, 0, 0}};

/* A page that is none is -3. */
static const signed char pages[] = {0, 3, 1, 0, 2, 2, -3, 1, 3, 0};

static void print(const char *text) {
    while (*text != 0) {
        *CONSOLE = (unsigned char)*text++;
    }
}

__attribute__((noinline)) static void count(int page) {
    bank.visits[page]++;
}

__attribute__((noinline)) static int sum(void) {
    int total = 0;
    for (int place = 0; place < 3; place++) {
        total += bank.accounts[place].balance;
    }
    return total;
}

int main(void) {
    for (unsigned int visit = 0; visit < sizeof pages; visit++) {
        count(pages[visit]);
    }
    if (sum() != 210) {
        print("the sum is wrong\n");
        return 1;
    }
    print("the sum is right\n");
    return 0;
}

/* Called by start.S with what main returned. */
void finish(int failure) {
    *FINISHER = failure == 0 ? 0x5555u : ((unsigned int)failure << 16 | 0x3333u);
    for (;;) {
    }
}
