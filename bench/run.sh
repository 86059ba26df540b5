#!/bin/sh
# Times `fast run`, on two threads and on one, on the loops of bench/func.sh, a branch that nobody can foresee and a compiled
# C program, each cut off after so many cycles, under the plain and the wide machine of examples/machines, with rings of 1,
# 64, 4,096 and 65,536 entries, and then on twice and four times as many cycles.
#
#     bench/run.sh [SIMULATOR]    a program that takes the same words, as reference/out/reference, which `make -C
#                                 reference` builds; its reports have to be the same
#
# A line for each: milliseconds of the best of some runs of the whole program, and millions of cycles in a second, on two
# threads and on one; with a simulator, which runs in turn with `fast`, its milliseconds and how many times as long as these
# `fast` takes. In the environment: CYCLES, 1,000,000 if left out; ROUNDS, how many runs, 5; and MACHINES, PROGRAMS and RINGS.
here=$(cd "$(dirname "$0")/.." && pwd) || exit 1
simulator=$1
cycles=${CYCLES:-1000000}
rounds=${ROUNDS:-5}
work=$(mktemp -d) || exit 1
trap 'rm -rf "$work"' EXIT

# number: its four bytes, the lowest first
word() {
    n=$(($1))
    for shift in 0 8 16 24; do
        printf "\\$(printf '%03o' $(((n >> shift) & 255)))"
    done
}

# words of a program: an ELF image of them at 0x80000000, the first one is executed first
image() {
    size=$((4 * $#))
    printf '\177ELF\001\001\001\000\000\000\000\000\000\000\000\000\002\000\363\000'
    for number in 1 0x80000000 52 0 0; do word $number; done
    printf '\064\000\040\000\001\000\000\000\000\000\000\000'
    for number in 1 84 0x80000000 0x80000000 $size $size 5 4; do word $number; done
    for number in "$@"; do word "$number"; done
}

# ADDI x5, x5, 1; XOR x6, x6, x5; ADD x7, x7, x6; JAL x0, -12
image 0x00128293 0x00534333 0x006383b3 0xff5ff06f >"$work/arithmetic"
# LUI x5, 0x80001; LW x6, 0(x5); ADDI x6, x6, 1; SW x6, 0(x5); JAL x0, -12
image 0x800012b7 0x0002a303 0x00130313 0x0062a023 0xff5ff06f >"$work/memory"
# ADDI x5, x5, 1; MUL x6, x5, x5; DIVU x7, x6, x5; JAL x0, -12
image 0x00128293 0x02528333 0x025353b3 0xff5ff06f >"$work/division"
# LUI x5, 0x12345; a step of xorshift: SLLI x6, x5, 13; XOR x5, x5, x6; SRLI x6, x5, 17; XOR x5, x5, x6; SLLI x6, x5, 5;
# XOR x5, x5, x6; its lowest bit decides: ANDI x6, x5, 1; BEQ x6, x0, 8; ADDI x7, x7, 1; JAL x0, -36
image 0x123452b7 0x00d29313 0x0062c2b3 0x0112d313 0x0062c2b3 0x00529313 0x0062c2b3 \
    0x0012f313 0x00030463 0x00138393 0xfddff06f >"$work/branches"
cp "$here/bench/compiled/mix.elf" "$work/compiled"

# report, words: runs them; the milliseconds
time_of() {
    report=$1
    shift
    start=$(date +%s%N)
    "$@" >"$report"
    end=$(date +%s%N)
    [ "$(grep '^status: ' "$report")" = 'status: limit' ] || { cat "$report" >&2; exit 1; }
    echo $(((end - start) / 1000000))
}

# the lower of two numbers, of which the first may be missing
best() {
    if [ -n "$1" ] && [ "$1" -le "$2" ]; then echo "$1"; else echo "$2"; fi
}

# report: whether it is that of two threads
compare() {
    cmp "$work/two" "$1" >&2 || exit 1
}

# program, machine, ring, cycles: a line of what they take
measure() {
    set -- "$1" "$2" "$3" "$4" run "$work/$1" "$here/examples/machines/$2.toml" --ring "$3" --cycles "$4"
    name="$1, $2, ring $3, $4 cycles" count=$4
    shift 4
    two= one= theirs= round=0
    while [ $round -lt "$rounds" ]; do
        round=$((round + 1))
        time=$(time_of "$work/two" "$here/out/fast" "$@") || exit 1
        two=$(best "$two" "$time")
        time=$(time_of "$work/one" "$here/out/fast" "$@" --threads 1) || exit 1
        one=$(best "$one" "$time")
        compare "$work/one"
        [ -n "$simulator" ] || continue
        time=$(time_of "$work/theirs" "$simulator" "$@") || exit 1
        theirs=$(best "$theirs" "$time")
        compare "$work/theirs"
    done
    awk -v name="$name" -v two="$two" -v one="$one" -v theirs="$theirs" -v cycles="$count" '
        # (a run takes a millisecond at least)
        function told(threads, time) {
            time = time ? time : 1
            line = sprintf("%s: %d ms, %.2f million cycles in a second", threads, time, cycles / time / 1000)
            if (theirs) line = line sprintf(", %.2f times as long", time / theirs)
            return line
        }
        BEGIN {
            theirs = theirs == "0" ? 1 : theirs
            printf "%s: %s; %s", name, told("2 threads", two), told("1 thread", one)
            if (theirs) printf "; the simulator: %d ms", theirs
            print ""
        }'
}

# The first call builds the program, which is then timed by itself.
"$here/fast" run "$work/arithmetic" "$here/examples/machines/plain.toml" --cycles 1 >/dev/null
for machine in ${MACHINES:-plain wide}; do
    for program in ${PROGRAMS:-arithmetic memory division branches compiled}; do
        for ring in ${RINGS:-1 64 4096 65536}; do
            measure "$program" "$machine" "$ring" "$cycles"
        done
    done
done
for times in 2 4; do
    measure compiled wide 64 $((times * cycles))
done
