#!/bin/sh
# Writes what is to be printed of the stored cases, from this implementation: for each its name and then the answer.
set -eu
cd "$(dirname "$0")/../.."
cargo build --release --offline --quiet -p clearance_reference
answer=build/release/clearance-reference

# expect FOLDER COMMAND
expect() {
    while read -r name; do
        echo "$name"
        "$answer" "$2" < "$1/data/$name"
    done < "$1/args" > "$1/stdout"
}

# Drawn again in either way, by rows and by quarters, a map has no other bytes.
expect_same() {
    while read -r name; do
        echo "$name"
        "$answer" map < "$1/data/$name" | sed -n '1{/^(refused/!s/.*/(rows 0) (quarters 0)/;p;}'
    done < "$1/args" > "$1/stdout"
}

expect differential/stored/sheets write
expect differential/stored/maps map
expect_same crates/drawing_cases
expect crates/point_cases probe
expect differential/stored/points probe-rows
