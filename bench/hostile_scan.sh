#!/bin/sh
# Scanning files that are full of false heads of frames, beside reading the same bytes. Three files: a million heads that claim
# 8 bytes each, fewer than any block has; a million that claim 200, behind which no block stands; and 502,000 that claim
# 4,000,000, of which the first 2,000 have so many bytes behind them, so that each of these is walked until a fault shows. Prints
# the ratio of the two times in one run of the proved program, the least of five.
top=$(CDPATH='' cd -- "$(dirname -- "$0")/.." && pwd) || exit 1
(cd "$top/crates/coins_bench" && rt run </dev/null) >/dev/null || exit 1
bench=$top/crates/coins_bench/out/coins_bench
while read -r count claim; do
    for run in 1 2 3 4 5; do
        "$bench" scan "$count" "$claim" </dev/null || exit 1
    done | awk -v claim="$claim" '
        { ratio = $3 / ($2 > 0 ? $2 : 1); if (NR == 1 || ratio < least) { least = ratio; line = $0 } }
        END { split(line, v, " "); printf "%d heads that claim %d bytes, %d bytes: scanning %d us, reading %d us, ratio %.1f\n", v[1], claim, v[4], v[3], v[2], least }'
done <<'FILES'
1000000 8
1000000 200
502000 4000000
FILES
