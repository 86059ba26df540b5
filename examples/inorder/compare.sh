#!/bin/sh
# Runs the program of ../compare on three machines with the same latencies, predictor and caches, and prints a line of
# counts for each.
here=$(cd "$(dirname "$0")" && pwd) || exit 1
fast=$here/../../fast
image=$here/../compare/work.elf
wide=$here/../machines/wide.toml

# name, words: the name, and the counts of the report that the words give
line() {
    name=$1
    shift
    "$fast" "$@" | awk -v name="$name" '
        /^cycles: /       { cycles = $2 }
        /^instructions: / { rate = $2 / cycles }
        /^squashed: /     { squashed = $2 }
        /^mispredicted: / { mispredicted = $2 }
        /^dcache: /       { misses = $4 }
        END { printf "%-10s %9d cycles  %.2f in a cycle  %6d squashed  %5d mispredicted  %d dcache misses\n",
                  name, cycles, rate, squashed, mispredicted, misses }'
}

line plain run "$image" "$here/plain.toml"
line in-order inorder "$image" "$wide"
line wide run "$image" "$wide"
