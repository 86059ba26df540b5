#!/bin/sh
# Times `fast func` on a compiled C program, bench/compiled/mix.elf, and prints the milliseconds of the best of five
# runs and the instructions in a second. Run it on an idle machine.
here=$(cd "$(dirname "$0")/.." && pwd) || exit 1
image=$here/bench/compiled/mix.elf
report=$(mktemp) || exit 1
trap 'rm -f "$report"' EXIT

"$here/fast" func "$image" >"$report"
best=
for run in 1 2 3 4 5; do
    start=$(date +%s%N)
    "$here/fast" func "$image" >"$report"
    status=$?
    end=$(date +%s%N)
    [ "$status" = 0 ] || { cat "$report" >&2; exit 1; }
    time=$(((end - start) / 1000000))
    [ -n "$best" ] && [ "$best" -le "$time" ] || best=$time
done
instructions=$(sed -n 's/^instructions: //p' "$report")
echo "compiled: $best ms, $((instructions / best * 1000)) instructions in a second"
