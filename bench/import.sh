#!/bin/sh
# Importing a generated chain of 20,000 blocks beside the same writes and syncs made bare, in turns on the same disk: prints the ratio
# of the two times, and the most memory that the import took.
top=$(CDPATH='' cd -- "$(dirname -- "$0")/.." && pwd) || exit 1
(cd "$top/crates/coinsd" && rt run </dev/null) >/dev/null || exit 1
(cd "$top/crates/coins_bench" && rt run </dev/null) >/dev/null || exit 1
count=${1:-20000}
scratch=$top/crates/coins_bench/out/import
rm -rf "$scratch" && mkdir -p "$scratch" && cd "$scratch" || exit 1
echo "generate 7 $count blocks.dat" | "$top/crates/coinsd/out/coinsd" >/dev/null || exit 1

# a store of these blocks anew; its time in microseconds and its memory in kilobytes
import() {
    rm -rf regtest
    start=$(date +%s%N)
    echo 'import blocks.dat' | command time -f %M -o memory "$top/crates/coinsd/out/coinsd" >reply || exit 1
    echo $((($(date +%s%N) - start) / 1000))
}

for run in 1 2 3; do
    took=$(import) || exit 1
    rm -f bare
    # each body is one append, and so are 1,000 headers and all coins
    body=$((($(wc -c <regtest/2) - 1) / count - 1))
    bare=$("$top/crates/coins_bench/out/coins_bench" append bare $((count + count / 1000 + 1)) "$body") || exit 1
    echo "$took ${bare#* } $(cat memory)"
done | awk -v count="$count" '
    { ratio = $1 / $2; if (NR == 1 || ratio < least) { least = ratio; line = $0 } }
    END { split(line, v, " "); printf "%d blocks: importing %d us, bare appends %d us, ratio %.2f, %d KiB of memory\n", count, v[1], v[2], least, v[3] }'
