#!/usr/bin/env bash
# Proves and links what C calls, compares its tick with two plain Rust dispatchers tick by tick and times the three; `bench/block.sh count` counts their instructions. Needs an x86-64 machine, rustc, and valgrind to count.
set -euo pipefail
cd "$(dirname "$0")/.."
mkdir -p target/bench
make lib > target/bench/board.out 2>&1 || { cat target/bench/board.out; exit 1; }
rustc --edition 2021 -C opt-level=3 bench/block/main.rs -o target/bench/block -L target/staticlib -l static=board
if [ "${1:-}" != count ]; then
    exec target/bench/block
fi
# counted WORKLOAD NAME FUNCTION: instructions a tick, and branches that valgrind's model of a processor foretells wrongly, in FUNCTION and what it calls.
counted() {
    valgrind --tool=callgrind --branch-sim=yes --callgrind-out-file=/dev/null --toggle-collect="$3" target/bench/block count "$1" \
        > target/bench/block.out 2>&1 || { cat target/bench/block.out; exit 1; }
    sed -n 's/.*Collected : //p' target/bench/block.out |
        awk -v work="$1" -v name="$2" '{ printf "%-5s  %-5s %.0f instructions, %.1f branches mispredicted a tick\n", work, name, $1 / 100000, ($3 + $5) / 100000 }'
}
for work in light firm heavy; do
    counted "$work" ours heechstjer_tick
    counted "$work" plain plain_tick
    counted "$work" fast fast_tick
done
