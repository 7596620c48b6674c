#!/usr/bin/env bash
# Runs the proved programs on every vector and compares what they print, byte for byte.
# A vector of plan: stdin, want. A vector of run: table.bin and events.bin (either may be missing), want.
set -euo pipefail
root=$(cd "$(dirname "$0")/.." && pwd)
. "$root/tests/machine.sh"
work=$(mktemp -d)
trap 'rm -rf "$work"' EXIT
count=0
bad=0

compare() {
    count=$((count + 1))
    if ! cmp -s "$1/want" "$work/got"; then
        bad=$((bad + 1))
        echo "vector $1: printed something else than $1/want"
        diff "$1/want" "$work/got" | head -n 5 || true
    fi
}

for vector in "$root"/tests/vectors/plan/*/; do
    $EMULATOR "$root/target/bin/plan" < "$vector/stdin" > "$work/got"
    compare "${vector%/}"
done

for vector in "$root"/tests/vectors/run/*/; do
    mkdir "$work/files"
    find "$vector" -name '*.bin' -exec cp {} "$work/files" \;
    (cd "$work/files" && $EMULATOR "$root/target/bin/run") > "$work/got"
    rm -r "$work/files"
    compare "${vector%/}"
done

echo "vectors: $((count - bad)) of $count as wanted"
[ "$count" -gt 0 ] && [ "$bad" -eq 0 ]
