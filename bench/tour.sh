#!/bin/sh
# Replays the tour of the README in a scratch folder, and compares what the program prints with what stands there.
top=$(CDPATH='' cd -- "$(dirname -- "$0")/.." && pwd) || exit 1
scratch=$top/crates/coinsd/out/tour
rm -rf "$scratch" && mkdir -p "$scratch" || exit 1
cp -r "$top/data" "$scratch/data" || exit 1
printf '#!/bin/sh\nexec "%s/coinsd" "$@"\n' "$top" >"$scratch/coinsd" && chmod +x "$scratch/coinsd" || exit 1

# The commands are the lines behind "    $ " of the part "A tour", and what they print are the indented lines that follow.
awk '/^## / { tour = $0 == "## A tour" } tour && /^    / { print substr($0, 5) }' "$top/README.md" >"$scratch/want"
grep '^\$ ' "$scratch/want" | while IFS= read -r line; do
    printf '%s\n' "$line"
    (cd "$scratch" && sh -c "${line#\$ }" 2>&1)
done >"$scratch/got"
if ! diff "$scratch/want" "$scratch/got"; then
    echo "the tour of the README isn't what the program prints" >&2
    exit 1
fi
echo "the tour of the README is what the program prints"
