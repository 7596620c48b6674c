#!/usr/bin/env bash
# Counts the instructions of the offers of bench/offer/main.c, the longest that there are: counts repeat exactly, seconds do not. Needs gcc and valgrind.
set -euo pipefail
cd "$(dirname "$0")/.."
mkdir -p target/bench
make lib > target/bench/board.out 2>&1 || { cat target/bench/board.out; exit 1; }
gcc -std=c99 -O2 -Iinclude bench/offer/main.c target/staticlib/libboard.a -o target/bench/offer
for offer in typical planned image; do
    count=$(valgrind --tool=callgrind --callgrind-out-file=/dev/null --toggle-collect=heechstjer_offer target/bench/offer "$offer" 2>&1 > /dev/null | sed -n 's/.*Collected : //p')
    printf '%12s  %s\n' "$count" "$offer"
done
