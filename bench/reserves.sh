#!/bin/sh
# Times `reserves` of the tool beside the plain C program reserves.c, which steps through every cell with the same
# whole-number work, in one run: a disability product of 780 months and three states, twelve states with 132 transitions
# over 1200 months, and a ring of eight states over 1200 months in which nothing varies, which the tool takes by one
# month map. Prints user seconds, the least of five runs each, and the tool's memory at its peak. Each number of the C
# program has to lie in the interval that the tool prints, and the tool has to be 50 times as fast on the ring; there
# both print two dates alone, so that what is timed is the sweep.
set -e
cd "$(dirname "$0")/.."
work=$(mktemp -d)
trap 'rm -rf "$work"' EXIT
tool=$PWD/crates/thiele_cli/out/thiele_cli
[ -x "$tool" ] || (cd crates/thiele_cli && rt run -- value ../../examples/flat.toml) >/dev/null 2>&1 || true
[ -x "$tool" ] || { echo "the program is not built: $tool"; exit 1; }
plain=$work/reserves
gcc -O2 -o "$plain" bench/reserves.c

# user seconds of a command, the least of five runs
seconds() {
    for _ in 1 2 3 4 5; do
        { bash -c "TIMEFORMAT=%U; time $1" >/dev/null; } 2>&1
    done | sort -n | head -1
}

# the rows of both beside each other: 0 if each number lies in its interval
agree() {
    awk 'NR == FNR { if (NR > 1) found[$1 " " $2] = $3; next }
         $3 == "reserve" {
             rows++
             low = $4; high = $5
             gsub(/\./, "", low); gsub(/\./, "", high)
             number = found[$1 " " $2]
             if (number == "" || number + 1 < low + 0 || number > high + 0) bad = 1
         }
         END { exit bad || rows == 0 }' "$1" "$2"
}

for case in "generated-7 12" "twelve 12" "ring 1200"; do
    set -- $case
    "$plain" file "$1" >"$work/$1.toml"
    "$tool" reserves "$work/$1.toml" "$2" >"$work/rows"
    scale=$(awk '$1 == "degree" { print $4 }' "$work/rows")
    "$plain" values "$1" "$scale" "$2" >"$work/numbers"
    agree "$work/numbers" "$work/rows" || { echo "the two differ at $case"; exit 1; }
    ours=$(seconds "$tool reserves $work/$1.toml $2")
    theirs=$(seconds "$plain values $1 $scale $2")
    memory=$(bash -c "/usr/bin/time -f %M $tool reserves $work/$1.toml $2 2>&1 >/dev/null" | tail -1)
    # ten runs, where one is too short to be timed
    if [ "$1" = ring ]; then
        ours=$(seconds "for _ in \$(seq 10); do $tool reserves $work/$1.toml $2; done")
        theirs=$(seconds "for _ in \$(seq 10); do $plain values $1 $scale $2; done")
        awk "BEGIN { exit !(50 * $ours <= $theirs) }" || { echo "the ring: $ours s here, $theirs s in C"; exit 1; }
    fi
    echo "$1: $ours s here, $theirs s in C, ratio $(awk "BEGIN { printf \"%.2f\", $ours / $theirs }"), peak $memory kB"
done
