#!/bin/sh
# Plays the session, and compares each machine that it shows with the report of a fresh run of as many steps: the size
# of the output, the address of the next instruction, registers and CSRs.
here=$(cd "$(dirname "$0")" && pwd) || exit 1
fast=$here/../../fast
work=$(mktemp -d) || exit 1
trap 'rm -rf "$work"' EXIT

# One file for each machine shown, with its address as a report has it.
"$fast" back "$here/overrun.elf" "$here/session" | awk -v work="$work" '
    /^[0-9]+ / { step = $1; pc = $2; next }
    { file = work "/" step; print > file }
    /^output: / { print "pc: " pc > file }'

for shown in "$work"/*; do
    step=$(basename "$shown")
    "$fast" func "$here/overrun.elf" --cycles "$step" | sed -n '/^output: /,$p' | cmp -s - "$shown" && same='the same' || same='another'
    echo "after $step steps: $same machine"
done
