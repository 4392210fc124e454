#!/bin/sh
# The index of a pool with a million keys beside the kit's hash map with keys of a few words: prints the ratios of the
# times in one run of the proved program, of five runs the one with the least ratio of finding. Then the memory that an
# entry takes beside its key and value: as its parts add up, and as the greatest memory of a process that stores a
# million entries shows it.
top=$(CDPATH='' cd -- "$(dirname -- "$0")/.." && pwd) || exit 1
(cd "$top/crates/coins_bench" && rt run </dev/null) >/dev/null || exit 1
bench=$top/crates/coins_bench/out/coins_bench
count=1000000
for run in 1 2 3 4 5; do
    "$bench" index "$count" | tr '\n' ' ' || exit 1
    echo
done | awk '
    { ratio = $5 / $6; if (NR == 1 || ratio < least) { least = ratio; line = $0 } }
    END {
        split(line, v, " ")
        printf "%d keys: storing %d us, hash map %d us, ratio %.2f\n", v[1], v[2], v[3], v[2] / v[3]
        printf "%d keys: finding %d us, hash map %d us, ratio %.2f\n", v[4], v[5], v[6], v[5] / v[6]
        printf "%d keys: taking %d us, hash map %d us, ratio %.2f\n", v[7], v[8], v[9], v[8] / v[9]
    }'
empty=$("$bench" fill-index 0) || exit 1
full=$("$bench" fill-index "$count") || exit 1
# A bucket takes as much as a link. Just after buckets were added there are two for each key, and while they are added one
# more. A place takes a byte that says whether it is filled, four in the list of vacant places, which is up to an eighth
# longer, and less than half a byte of what its chunk takes itself.
echo "$empty $full" | awk '
    {
        entry = $2; link = $3; parts = link + 2 * link + 1 + 4 * 9 / 8 + 0.5
        printf "an entry of %d bytes, %d of them its link: beside key and value %.1f bytes by its parts, %.1f while buckets are added, %.1f measured\n",
            entry, link, parts, parts + link, ($8 - $4) * 1024 / $5 - entry + link
    }'
