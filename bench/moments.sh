#!/bin/sh
# Times `moments` of the tool beside the plain C program moments.c, which does the same whole-number work, in one run: a
# disability product of 780 months and three states, and twelve states with 132 transitions over 1200 months. Prints
# user seconds, the least of five runs each, and the tool's memory at its peak. Each number of the C program has to lie
# in the interval that the tool prints. Nothing else should run on the machine meanwhile.
set -e
cd "$(dirname "$0")/.."
work=$(mktemp -d)
trap 'rm -rf "$work"' EXIT
tool=$PWD/crates/thiele_cli/out/thiele_cli
[ -x "$tool" ] || (cd crates/thiele_cli && rt run -- value ../../examples/flat.toml) >/dev/null 2>&1 || true
[ -x "$tool" ] || { echo "the program is not built: $tool"; exit 1; }
plain=$work/moments
gcc -O2 -o "$plain" bench/moments.c

# user seconds of a command, the least of five runs
seconds() {
    for _ in 1 2 3 4 5; do
        { bash -c "TIMEFORMAT=%U; time $1" >/dev/null; } 2>&1
    done | sort -n | head -1
}

# the rows of both beside each other: 0 if each number lies in its interval. The numbers have up to 30 digits
agree() {
    python3 - "$1" "$2" <<'PYTHON'
import sys

numbers, rows = ([line.split() for line in open(name)] for name in sys.argv[1:])
found = {tuple(line[:3]): int(line[3]) for line in numbers[1:]}
told = [line for line in rows if len(line) == 6 and line[2] in ("first", "second", "variance")]
for month, state, what, low, high, _tolerance in told:
    number = found[month, state, what]
    if not int(low.replace(".", "")) <= number + 1 or not number <= int(high.replace(".", "")):
        sys.exit(f"{month} {state} {what}: {number} is not from {low} to {high}")
sys.exit(len(told) != len(found))
PYTHON
}

for case in "generated-7 12" "twelve 12"; do
    set -- $case
    "$plain" file "$1" >"$work/$1.toml"
    "$tool" moments "$work/$1.toml" "$2" >"$work/rows" || { echo "no moments: $(cat "$work/rows")"; exit 1; }
    scale=$(awk '$1 == "degree" { print $4 }' "$work/rows")
    "$plain" values "$1" "$scale" "$2" >"$work/numbers"
    agree "$work/numbers" "$work/rows" || { echo "the two differ at $case"; exit 1; }
    ours=$(seconds "$tool moments $work/$1.toml $2")
    theirs=$(seconds "$plain values $1 $scale $2")
    memory=$(bash -c "/usr/bin/time -f %M $tool moments $work/$1.toml $2 2>&1 >/dev/null" | tail -1)
    echo "$1: $ours s here, $theirs s in C, ratio $(awk "BEGIN { printf \"%.2f\", $ours / $theirs }"), peak $memory kB"
done
