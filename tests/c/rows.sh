#!/usr/bin/env bash
# HEECHSTJER_ROW and HEECHSTJER_MARGIN_ROW take the largest numbers and the smallest, and one more or less than them is a
# compile error, in C and in C++, with no warning asked for.
#   tests/c/rows.sh CC CXX
set -euo pipefail
cd "$(dirname "$0")/../.."

compiles() {
    printf '#include <heechstjer.h>\nconst uint8_t table[] = {HEECHSTJER_%s, HEECHSTJER_END};\n' "$1" |
        $2 -w -Iinclude -fsyntax-only - 2> /dev/null
}

for compiler in "$1 -std=c99 -x c" "$2 -std=c++11 -x c++"; do
    for row in 'ROW(0, 0, 0, 0)' 'ROW(65535, 65535, 65535, 255)' \
               'MARGIN_ROW(0, 0, 0, 0, 0)' 'MARGIN_ROW(65535, 65535, 65535, 255, 65535)'; do
        compiles "$row" "$compiler" || { echo "rows: $compiler refuses $row"; exit 1; }
    done
    for row in '65536, 1, 1, 0' '1, 65536, 1, 0' '1, 1, 65536, 0' '1, 1, 1, 256' \
               '-1, 1, 1, 0' '1, -1, 1, 0' '1, 1, -1, 0' '1, 1, 1, -1'; do
        ! compiles "ROW($row)" "$compiler" || { echo "rows: $compiler takes ROW($row)"; exit 1; }
        ! compiles "MARGIN_ROW($row, 1)" "$compiler" || { echo "rows: $compiler takes MARGIN_ROW($row, 1)"; exit 1; }
    done
    for margin in 65536 -1; do
        ! compiles "MARGIN_ROW(1, 1, 1, 0, $margin)" "$compiler" || { echo "rows: $compiler takes a margin of $margin"; exit 1; }
    done
done
