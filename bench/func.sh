#!/bin/sh
# Times `fast func` on three loops that never end, each cut off after 10,000,000 steps, and prints the milliseconds
# of the best of five runs and the steps in a second. Run it on an idle machine.
here=$(cd "$(dirname "$0")/.." && pwd) || exit 1
work=$(mktemp -d) || exit 1
trap 'rm -rf "$work"' EXIT

# number: its four bytes, the lowest first
word() {
    n=$(($1))
    for shift in 0 8 16 24; do
        printf "\\$(printf '%03o' $(((n >> shift) & 255)))"
    done
}

# words of a program: an ELF image of them at 0x80000000, the first one is executed first
image() {
    size=$((4 * $#))
    printf '\177ELF\001\001\001\000\000\000\000\000\000\000\000\000\002\000\363\000'
    for number in 1 0x80000000 52 0 0; do word $number; done
    printf '\064\000\040\000\001\000\000\000\000\000\000\000'
    for number in 1 84 0x80000000 0x80000000 $size $size 5 4; do word $number; done
    for number in "$@"; do word "$number"; done
}

# ADDI x5, x5, 1; XOR x6, x6, x5; ADD x7, x7, x6; JAL x0, -12
image 0x00128293 0x00534333 0x006383b3 0xff5ff06f >"$work/arithmetic"
# LUI x5, 0x80001; LW x6, 0(x5); ADDI x6, x6, 1; SW x6, 0(x5); JAL x0, -12
image 0x800012b7 0x0002a303 0x00130313 0x0062a023 0xff5ff06f >"$work/memory"
# ADDI x5, x5, 1; MUL x6, x5, x5; DIVU x7, x6, x5; JAL x0, -12
image 0x00128293 0x02528333 0x025353b3 0xff5ff06f >"$work/division"

"$here/fast" func "$work/arithmetic" >/dev/null
for loop in arithmetic memory division; do
    best=
    for run in 1 2 3 4 5; do
        start=$(date +%s%N)
        "$here/fast" func "$work/$loop" >"$work/report"
        end=$(date +%s%N)
        [ "$(head -n 1 "$work/report")" = 'status: limit' ] || { cat "$work/report" >&2; exit 1; }
        time=$(((end - start) / 1000000))
        [ -n "$best" ] && [ "$best" -le "$time" ] || best=$time
    done
    echo "$loop: $best ms, $((10000000 / best * 1000)) steps in a second"
done
