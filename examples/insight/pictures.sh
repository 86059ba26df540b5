#!/bin/sh
# Makes the pictures anew: SIMULATOR is one that knows trace. It takes Chromium, and matplotlib for the bars.
[ $# = 1 ] || { echo "usage: $0 SIMULATOR" >&2; exit 2; }
simulator=$(realpath "$1") || exit
cd "$(dirname "$0")" || exit
folder=$(mktemp -d) || exit
trap 'rm -rf "$folder"' EXIT

# picture TRACE IMAGE VIEW NAME: the page of a trace, with what is in view and selected
picture() {
    ../../tools/pipeline "$1" --image "$2" --html "$folder/page.html" --quiet &&
        chromium --headless --no-sandbox --disable-gpu --hide-scrollbars --window-size=1320,860 \
            --user-data-dir="$folder" --virtual-time-budget=3000 --screenshot="$4" \
            "file://$folder/page.html#abi=1&$3" 2>/dev/null
}

chain=$folder/arithmetic.bimodal.kanata
"$simulator" trace arithmetic.elf bimodal.toml --from 60000 --to 60060 >"$chain"
picture branch.wide.kanata branch.elf "place=44&row=57" wrong-path.png &&
    picture "$chain" arithmetic.elf "place=46&row=71" chain.png &&
    ../../tools/profile --stack "$folder/stacks" branch.small.csv branch.wide.csv branch.bimodal.csv >/dev/null &&
    cp "$folder/stacks.png" .
