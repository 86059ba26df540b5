#!/bin/sh
# Runs `fast` on machine files, images, inputs and plans of the greatest sizes, and prints for each run its seconds, its
# processor seconds and the most memory that it had: bench/limits.sh [SIMULATOR]
# Where a simulator that takes the same words is named, as reference/out/reference, its output has to be the same.
here=$(cd "$(dirname "$0")/.." && pwd) || exit 1
simulator=$1
work=$(mktemp -d) || exit 1
trap 'rm -rf "$work"' EXIT
cd "$work" || exit 1

# numbers: the four bytes of each, the lowest first
words() {
    for number in "$@"; do
        n=$((number))
        for shift in 0 8 16 24; do
            printf "\\$(printf '%03o' $(((n >> shift) & 255)))"
        done
    done
}

# An image of 67,108,864 bytes: 64 segments of 1 MiB, all of them executable, of which the last lacks the headers' 2,100
# bytes in the file, and a program that puts out 16 MiB, 64 bytes in a round.
image() {
    printf '\177ELF\001\001\001\000\000\000\000\000\000\000\000\000\002\000\363\000'
    words 1 0x80000000 52 0 0
    printf '\064\000\040\000\100\000\000\000\000\000\000\000'
    for index in $(seq 0 63); do
        size=1048576
        [ "$index" != 63 ] || size=$((1048576 - 2100))
        addr=$((0x80000000 + index * 1048576))
        words 1 $((2100 + index * 1048576)) $addr $addr $size 1048576 7 4
    done
    words 0x10000437 0x04100493 0x00040537
    for byte in $(seq 64); do words 0x00940023; done
    words 0xfff50513 0xee051ee3 0x00100337 0x000053b7 0x55538393 0x00732023
    head -c $((67108864 - 2100 - 4 * 73)) /dev/zero
}

image >image
head -c 16777216 /dev/zero >input
yes CPKTSO | tr -d '\n' | head -c 1048576 >plan

# The largest: all that has a number has it at its greatest, latencies at their least.
cat >largest <<'END'
version = 2
ram.size = 67108864
core = { fetch = 8, commit = 8, window = 256, stations = 256 }
alu.count = 8
mul.count = 8
div.count = 8
mem.count = 8
predictor = { kind = "gshare", counters = 65536, history = 16, targets = 65536 }
icache = { line = 256, sets = 4096, ways = 16 }
dcache = { line = 256, sets = 4096, ways = 16, policy = "back" }
l2 = { line = 256, sets = 65536, ways = 16 }
END
# The slowest: the same with all latencies at their greatest, and lines of four bytes.
cat >slowest <<'END'
version = 2
ram.size = 67108864
core = { fetch = 8, commit = 8, front = 32, window = 256, stations = 256 }
alu = { count = 8, latency = 64 }
mul = { count = 8, latency = 64 }
div = { count = 8, latency = 64 }
mem = { count = 8, latency = 64 }
predictor = { kind = "gshare", counters = 65536, history = 16, targets = 65536 }
icache = { line = 4, sets = 4096, ways = 16 }
dcache = { line = 4, sets = 4096, ways = 16, policy = "back" }
l2 = { line = 4, sets = 65536, ways = 16, hit = 1000, miss = 1000 }
END
# A loop with a branch that nobody foresees, a division behind it, and a load from one of 512 places.
# AUIPC x10, 0; ADDI x5, x0, 1; SLLI x6, x5, 13; XOR x5, x5, x6; SRLI x6, x5, 17; XOR x5, x5, x6; SLLI x6, x5, 5;
# XOR x5, x5, x6; ANDI x7, x5, 1; BEQ x7, x0, 8; DIV x8, x5, x7; ANDI x11, x5, 0x7fc; ADD x11, x11, x10; LW x9, 0(x11);
# JAL x0, -48
branches() {
    printf '\177ELF\001\001\001\000\000\000\000\000\000\000\000\000\002\000\363\000'
    words 1 0x80000000 52 0 0
    printf '\064\000\040\000\001\000\000\000\000\000\000\000'
    words 1 84 0x80000000 0x80000000 60 60 5 4
    words 0x00000517 0x00100293 0x00d29313 0x0062c2b3 0x0112d313 0x0062c2b3 0x00529313 0x0062c2b3 0x0012f393 \
        0x00038463 0x0272c433 0x7fc2f593 0x00a585b3 0x0005a483 0xfd1ff06f
}
branches >branches

# words: runs them, and prints what it took
measure() {
    /usr/bin/time -q -f '%e s, %U s of a processor, %M KiB' -o took "$program" "$@" >out
    status=$?
    echo "$*: status $status, $(sed -n 's/^cycles: //p;s/^instructions: //p' out | tr '\n' ' ')$(cat took)"
    [ -z "$simulator" ] && return
    "$simulator" $(echo "$*" | sed 's/ --threads 1//') >other
    cmp -s out other || echo "$*: the other simulator's output differs"
}

"$here/fast" func branches --cycles 1 >/dev/null
program=$here/out/fast
measure run image largest --ring 65536 --input input --cycles 100000000
measure run image largest --ring 65536 --input input --cycles 100000000 --threads 1
measure sched image largest plan --ring 65536 --input input
measure inorder image largest plan --ring 65536 --input input --cycles 1000000
measure sweep image largest largest largest largest largest largest largest largest --input input --cycles 100000000
measure run image slowest --ring 65536 --input input --cycles 1000000 --threads 1
measure run branches slowest --ring 65536 --cycles 1000000 --threads 1
measure run branches slowest --ring 65536 --cycles 1000000
measure run branches slowest --ring 1 --cycles 100000
measure sched branches slowest plan --ring 1
measure inorder branches slowest plan --ring 1 --cycles 1000000
