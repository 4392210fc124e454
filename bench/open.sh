#!/bin/sh
# Opening a store of 100,000 blocks beside reading its files bare and hashing its headers: prints the ratio of the two times, the least
# of five runs, and the most memory that the opening took.
top=$(CDPATH='' cd -- "$(dirname -- "$0")/.." && pwd) || exit 1
(cd "$top/crates/coinsd" && rt run </dev/null) >/dev/null || exit 1
(cd "$top/crates/coins_bench" && rt run </dev/null) >/dev/null || exit 1
count=${1:-100000}
scratch=$top/crates/coins_bench/out/open
rm -rf "$scratch" && mkdir -p "$scratch" && cd "$scratch" || exit 1
printf 'generate 7 %d blocks.dat\nimport blocks.dat\n' "$count" | "$top/crates/coinsd/out/coinsd" >/dev/null || exit 1

for run in 1 2 3 4 5; do
    start=$(date +%s%N)
    command time -f %M -o memory "$top/crates/coinsd/out/coinsd" </dev/null >reply || exit 1
    took=$((($(date +%s%N) - start) / 1000))
    bare=$("$top/crates/coins_bench/out/coins_bench" read-store regtest/1 regtest/2 regtest/3) || exit 1
    echo "$took ${bare% *} $(cat memory)"
done | awk -v count="$count" '
    { ratio = $1 / $2; if (NR == 1 || ratio < least) { least = ratio; line = $0 } }
    END { split(line, v, " "); printf "%d blocks: opening %d us, bare reads and hashes %d us, ratio %.2f, %d KiB of memory\n", count, v[1], v[2], least, v[3] }'
