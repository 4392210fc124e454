#!/bin/sh
# Reading a snapshot file of a million coins, fed in pieces of 64 KiB, beside the SHA-256 of the same bytes: prints the
# ratio of the two times in one run of the proved program, the least of five runs.
top=$(CDPATH='' cd -- "$(dirname -- "$0")/.." && pwd) || exit 1
(cd "$top/crates/coins_bench" && rt run </dev/null) >/dev/null || exit 1
bench=$top/crates/coins_bench/out/coins_bench
for run in 1 2 3 4 5; do
    "$bench" snapshot 1000000 || exit 1
done | awk '
    { ratio = $4 / $3; if (NR == 1 || ratio < least) { least = ratio; line = $0 } }
    END { split(line, v, " "); printf "%d coins, %d bytes: reading %d us, hashing %d us, ratio %.2f\n", v[1], v[2], v[4], v[3], least }'
