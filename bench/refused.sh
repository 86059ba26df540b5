#!/bin/sh
# Refuses each allocation of a run in turn: bench/refused.sh
# Runs `fast` again and again on the same words, with its first allocation refused, its second, and so on until none is.
# Each run has to end with the line and the status of want of memory (a file whose name can't be copied is a read fault),
# or with the answer of the run of which nothing is refused. Prints for each line of words how many runs ended how, and
# ends with status 1 where a run ended otherwise. It needs a C compiler; the allocator is replaced by LD_PRELOAD.
here=$(cd "$(dirname "$0")/.." && pwd) || exit 1
work=$(mktemp -d) || exit 1
trap 'rm -rf "$work"' EXIT

cat >"$work/refuse.c" <<'END'
#define _GNU_SOURCE
#include <dlfcn.h>
#include <fcntl.h>
#include <stdatomic.h>
#include <stdlib.h>
#include <unistd.h>

/* The number of the allocation to refuse, from 1; 0 for none. */
static unsigned long refused;
static atomic_ulong count;

__attribute__((constructor)) static void start(void) {
    const char *number = getenv("REFUSED");
    refused = number != NULL ? strtoul(number, NULL, 10) : 0;
}

/* Leaves a file behind where an allocation is refused. */
static int is_refused(void) {
    if (refused == 0 || atomic_fetch_add(&count, 1) + 1 != refused) {
        return 0;
    }
    close(open(getenv("REFUSED_MARK"), O_CREAT | O_WRONLY, 0600));
    return 1;
}

void *malloc(size_t size) {
    static void *(*next)(size_t);
    if (next == NULL) {
        next = (void *(*)(size_t))dlsym(RTLD_NEXT, "malloc");
    }
    return is_refused() ? NULL : next(size);
}

void *realloc(void *block, size_t size) {
    static void *(*next)(void *, size_t);
    if (next == NULL) {
        next = (void *(*)(void *, size_t))dlsym(RTLD_NEXT, "realloc");
    }
    return is_refused() ? NULL : next(block, size);
}
END
cc -O1 -shared -fPIC -o "$work/refuse.so" "$work/refuse.c" -ldl || exit 1

# number: its four bytes, the lowest first
word() {
    n=$(($1))
    for shift in 0 8 16 24; do
        printf "\\$(printf '%03o' $(((n >> shift) & 255)))"
    done
}

# words of a program: an ELF image of them at 0x80000000, the first one is executed first
image() {
    size=$((4 * $#))
    printf '\177ELF\001\001\001\000\000\000\000\000\000\000\000\000\002\000\363\000'
    for number in 1 0x80000000 52 0 0; do word $number; done
    printf '\064\000\040\000\001\000\000\000\000\000\000\000'
    for number in 1 84 0x80000000 0x80000000 $size $size 5 4; do word $number; done
    for number in "$@"; do word "$number"; done
}

# LUI x5, 0x100; LUI x6, 5; ADDI x6, x6, 0x555; SW x6, 0(x5): a pass
image 0x001002b7 0x00005337 0x55530313 0x0062a023 >"$work/pass"
# behind a branch that is taken stands a load from the console, and behind that another
image 0x00100293 0x10000437 0x00029463 0x00044483 0x00044503 0x00100337 0x000053b7 0x55538393 0x00732023 >"$work/echo"
# a loop of ten rounds
image 0x00a00293 0xfff28293 0xfe029ee3 0x00100337 0x000053b7 0x55538393 0x00732023 >"$work/loop"
printf 'AB' >"$work/input"
printf 'core.window = 8\n' >"$work/eight"
printf 'core.window = 0\n' >"$work/bad"
printf 'core.window = 8\npredictor.kind = "bimodal"\npredictor.targets = 16\n' >"$work/targets"
{
    printf 'CP%.0s' 1 2 3 4 5 6 7 8 9 10 11 12 13
    for turn in $(seq 200); do printf 'KTS'; done
} >"$work/ahead"

# words: refuses each allocation of their run in turn
refuse() {
    "$program" "$@" >"$work/whole"
    whole=$?
    number=0
    memory=0
    fault=0
    same=0
    while :; do
        number=$((number + 1))
        rm -f "$work/mark"
        timeout 60 env REFUSED=$number REFUSED_MARK="$work/mark" LD_PRELOAD="$work/refuse.so" "$program" "$@" >"$work/out"
        status=$?
        if [ "$status" = "$whole" ] && cmp -s "$work/out" "$work/whole"; then
            same=$((same + 1))
        elif [ "$status" = 16 ] && [ "$(cat "$work/out")" = 'fast: no memory' ]; then
            memory=$((memory + 1))
        elif [ "$status" = 14 ] && [ "$(wc -l <"$work/out")" = 1 ] && grep -q '^fast: read fault: ' "$work/out"; then
            fault=$((fault + 1))
        else
            echo "$*: allocation $number refused: status $status: $(head -n 1 "$work/out")"
            failed=1
        fi
        [ -e "$work/mark" ] || break
    done
    echo "$*: $((number - 1)) allocations refused: $memory no memory, $fault read fault, $((same - 1)) the whole answer"
}

"$here/fast" func "$work/pass" >/dev/null || exit 1
program=$here/out/fast
failed=0
cd "$work" || exit 1
refuse func pass
refuse run echo eight --input input --threads 1
refuse run echo eight --input input
refuse sched loop targets ahead --ring 16
refuse inorder loop targets ahead --ring 16
refuse sweep loop targets eight bad
refuse soak 7
refuse func absent
refuse func --cycles 0
exit $failed
