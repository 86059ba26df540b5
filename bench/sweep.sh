#!/bin/sh
# Times `fast sweep` of a compiled C program under eight machine files beside eight runs one after another, each on one
# thread and as long: wide.toml with windows of 8 to 128 slots, and prints the milliseconds of the best of some rounds.
#
#     bench/sweep.sh
#
# In the environment: CYCLES, 1,000,000 if left out, and ROUNDS, how often both are run in turn, 5. The cycles and misses
# of each line of the sweep have to be those of the run's report.
here=$(cd "$(dirname "$0")/.." && pwd) || exit 1
image=$here/bench/compiled/mix.elf
cycles=${CYCLES:-1000000}
rounds=${ROUNDS:-5}
work=$(mktemp -d) || exit 1
trap 'rm -rf "$work"' EXIT
cd "$work" || exit 1

windows='8 12 16 24 32 64 96 128'
for window in $windows; do
    sed "s/^window = .*/window = $window/" "$here/examples/machines/wide.toml" >"$window.toml"
done
machines=$(printf '%s.toml ' $windows)

# The first call builds the program, which is then timed by itself.
"$here/fast" run "$image" 8.toml --cycles 1 >/dev/null
fast=$here/out/fast

# words: runs them; the milliseconds
time_of() {
    start=$(date +%s%N)
    "$@" || exit 1
    end=$(date +%s%N)
    echo $(((end - start) / 1000000))
}

# a run's report: what the line of a sweep says of it
line_of() {
    awk -v name="$1" '
        $1 == "status:" { end = $0; sub(/^status: /, "", end) }
        $1 == "cycles:" { cycles = $2 }
        $1 == "instructions:" { instructions = $2 }
        $1 == "mispredicted:" { mispredicted = $2 }
        $1 == "icache:" { icache = $4 }
        $1 == "dcache:" { dcache = $4 }
        END { print name ": " end " cycles " cycles " instructions " instructions " mispredicted " mispredicted \
            " icache " icache " dcache " dcache }' "$2"
}

# The eight runs, one after another.
run_each() {
    for window in $windows; do
        "$fast" run "$image" "$window.toml" --cycles "$cycles" --threads 1 >"$window.report"
    done
    true
}

sweep_all() {
    "$fast" sweep "$image" $machines --cycles "$cycles" >lines
    [ $? -eq 5 ]
}

each= all= round=0
while [ $round -lt "$rounds" ]; do
    round=$((round + 1))
    time=$(time_of run_each) || exit 1
    [ -n "$each" ] && [ "$each" -le "$time" ] || each=$time
    time=$(time_of sweep_all) || exit 1
    [ -n "$all" ] && [ "$all" -le "$time" ] || all=$time
done
for window in $windows; do
    line_of "$window.toml" "$window.report"
done | diff - lines >&2 || exit 1
echo "eight runs of $cycles cycles: $each ms one after another, $all ms as a sweep"
