#!/bin/sh
# The cost of the gate, crate by crate, lowest first: runs `rt ci NAME` for each crate of crates.txt, or for those given, and
# prints the processor minutes of its own proof, of its tests and of its must-fail edits as rows of a table in docs/GATE.md.
# What the gate passed before on this machine is kept and costs nothing again: for figures from nothing, take a new machine.
top=$(CDPATH='' cd -- "$(dirname -- "$0")/.." && pwd) || exit 1
cd "$top" || exit 1
[ $# -gt 0 ] || set -- $(sed 's/:.*//' crates.txt)
tick=$(getconf CLK_TCK)

# the clock ticks that the processes of a session and the children that they waited for have had
spent() {
    cat /proc/[0-9]*/stat 2>/dev/null | awk -v session="$1" '{ sub(/^.*\) /, ""); if ($4 == session) t += $12 + $13 + $14 + $15 } END { print t + 0 }'
}

# at each line of the gate's log that ends a part, the part's name and the ticks so far
parts() {
    session=
    while IFS= read -r line; do
        [ -n "$session" ] || { session=$line; continue; }
        case $line in
        "rt: $1: its tests are proved"*) echo "tests $(spent "$session")" ;;
        "rt: $1: trying its must-fail edits"*) echo "tests $(spent "$session")" ;;
        "logic="*) echo "proof $(spent "$session")" ;;
        "rt: must-fail $1/"*) echo "edits $(spent "$session")" ;;
        "rt: $1: its tests passed"* | "rt: $1 and the crates below passed"*) echo "tests $(spent "$session")" ;;
        *" passed, "*" failed"*) echo "end $line" ;;
        esac
    done
}

echo '| crate | own proof | tests | edits | all |'
echo '|---|---|---|---|---|'
for name; do
    setsid sh -c 'echo $$; rt ci "$1" 2>&1' sh "$name" | parts "$name" | awk -v name="$name" -v tick="$tick" '
        $1 == "end" { if ($0 !~ / 0 failed/) { print name ": the gate refuses it" > "/dev/stderr"; failed = 1 } next }
        # the last proof before the tests is the crate'"'"'s own, a later one its tests'"'"'
        $1 == "proof" && seen { $1 = "tests" }
        { minutes[$1] += ($2 - last) / tick / 60; last = $2 }
        $1 == "proof" { seen = 1 }
        END {
            printf "| %s | %.1f | %.1f | %.1f | %.1f |\n", name, minutes["proof"], minutes["tests"], minutes["edits"], last / tick / 60
            exit failed
        }' || exit 1
done
