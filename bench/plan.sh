#!/usr/bin/env bash
# Counts the instructions of plan on each table of bench/plan: counts repeat exactly, seconds do not. Needs valgrind, and target/bin/plan (make programs).
set -euo pipefail
cd "$(dirname "$0")/.."
for table in bench/plan/*.bin; do
    count=$(valgrind --tool=callgrind --callgrind-out-file=/dev/null target/bin/plan < "$table" 2>&1 > /dev/null | sed -n 's/.*Collected : //p')
    printf '%12s  %s\n' "$count" "$table"
done
