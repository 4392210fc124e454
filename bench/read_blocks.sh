#!/bin/sh
# Reading the blocks of a file of about 16 MB beside hashing the same bytes twice: prints the ratio of the two times in
# one run of the proved program, the least of five runs.
top=$(CDPATH='' cd -- "$(dirname -- "$0")/.." && pwd) || exit 1
(cd "$top/crates/coins_bench" && rt run </dev/null) >/dev/null || exit 1
bench=$top/crates/coins_bench/out/coins_bench
folder=$(mktemp -d) || exit 1
trap 'rm -rf "$folder"' EXIT
"$bench" make-blocks "$folder/blocks.dat" 210 || exit 1
for run in 1 2 3 4 5; do
    "$bench" read-blocks "$folder/blocks.dat" || exit 1
done | awk -v bytes="$(wc -c <"$folder/blocks.dat")" '
    { ratio = $3 / $2; if (NR == 1 || ratio < least) { least = ratio; line = $0 } }
    END { split(line, v, " "); printf "%d blocks, %d bytes: reading %d us, hashing %d us, ratio %.2f\n", v[1], bytes, v[3], v[2], least }'
