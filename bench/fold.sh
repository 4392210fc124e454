#!/bin/sh
# Folding a generated chain of about 16 MB beside the double hashes of its blocks alone: prints the ratio of the two times
# in one run of the proved program, the least of five runs, and the blocks of a second.
top=$(CDPATH='' cd -- "$(dirname -- "$0")/.." && pwd) || exit 1
(cd "$top/crates/coins_bench" && rt run </dev/null) >/dev/null || exit 1
bench=$top/crates/coins_bench/out/coins_bench
for run in 1 2 3 4 5; do
    "$bench" fold "${1:-55000}" || exit 1
done | awk '
    { ratio = $3 / $2; if (NR == 1 || ratio < least) { least = ratio; line = $0 } }
    END { split(line, v, " "); printf "%d blocks, %d bytes: folding %d us (%d blocks a second), hashing %d us, ratio %.2f\n", v[1], v[4], v[3], v[1] * 1000000 / v[3], v[2], least }'
