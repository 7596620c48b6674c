#!/usr/bin/env bash
# Compares the library, through its C header, and the programs with the reference (tests/README.md).
#   tests/compare.sh                       every suite over its fixed seeds, as in the gate
#   tests/compare.sh soak MINUTES [SEED]   over other seeds, until the time is over
#   tests/compare.sh SUITE [SEED]          one suite (calls, rollover, blocks, programs), or one case of it again
#   tests/compare.sh sleep                 a row that sleeps 2^32 ticks, tick by tick (long)
# Proves and builds the library and the programs first, where they are not.
set -euo pipefail
root=$(cd "$(dirname "$0")/.." && pwd)
cd "$root"
. tests/machine.sh
mkdir -p target
make programs shim > target/compare.out 2>&1 || { cat target/compare.out; exit 1; }
export CARGO_TARGET_DIR="$root/target/cargo"
exec cargo run --offline --quiet --manifest-path "$root/tests/compare/Cargo.toml" -- "$@"
