#!/usr/bin/env bash
# Holds what tests/needs.sh prints, on standard input, to what is said: symbols, registers and red zone to the lines of
# docs/c-interface.md, every function's stack to the header's HEECHSTJER_STACK_BYTES.
set -euo pipefail
cd "$(dirname "$0")/../.."
printed=$(cat)
kinds='needs|vector registers|x87 and MMX registers|mxcsr|red zone'
most=$(sed -nE 's/^#define HEECHSTJER_STACK_BYTES ([0-9]+).*/\1/p' include/heechstjer.h)

diff <(sed -nE "s/^    (($kinds) .*)/\1/p" docs/c-interface.md) <(grep -E "^($kinds) " <<< "$printed")
grep '^stack of ' <<< "$printed" | while read -r _ _ function bytes; do
    if [ "$bytes" -gt "$most" ]; then
        echo "$function takes $bytes bytes of stack, and the header says $most"
        exit 1
    fi
done
