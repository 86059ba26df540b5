#!/bin/sh
# Runs each image without a pipeline and under three machine files, for 100,000 steps or cycles. Prints how each run
# ends, and whether output, registers and CSRs are those of the run without a pipeline.
here=$(cd "$(dirname "$0")" && pwd) || exit 1
fast=$here/../../fast
work=$(mktemp -d) || exit 1
trap 'rm -rf "$work"' EXIT

# The output of a run, and the registers and CSRs behind its counts.
end_of() {
    sed '/^status: /,/^output: /d' "$1"
}

for image in "$here"/*.elf; do
    "$fast" func "$image" --cycles 100000 >"$work/func"
    echo "$(basename "$image"): func: $(sed -n 's/^status: //p' "$work/func")"
    for machine in plain small wide; do
        "$fast" run "$image" "$here/../machines/$machine.toml" --cycles 100000 >"$work/run"
        end_of "$work/func" >"$work/first"
        end_of "$work/run" | cmp -s - "$work/first" && same='the same' || same='another'
        echo "$(basename "$image"): $machine: $(sed -n 's/^status: //p' "$work/run"), $same end"
    done
done
