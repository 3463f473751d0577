#!/bin/sh
# Times the steps of step_bench beside those of the plain C program step.c, which does the same whole-number work with
# all numbers in 128 bits, in one run: three states with 4 links and powers up to 3, and twelve with 24 links and powers
# up to 5.
# Takes the number of steps of the first case (200000); the second one takes a tenth of it.
set -e
cd "$(dirname "$0")/.."
steps=${1:-200000}
(cd crates/step_bench && rt run <stdin >/dev/null)
program=crates/step_bench/out/step_bench
plain=$(mktemp)
trap 'rm -f "$plain"' EXIT
gcc -O2 -o "$plain" bench/step.c

# user seconds of a command, the least of three runs
seconds() {
    for _ in 1 2 3; do
        { bash -c "TIMEFORMAT=%U; time $1" >/dev/null; } 2>&1
    done | sort -n | head -1
}

for case in "3 $steps" "12 $((steps / 10))"; do
    [ "$(echo "$case" | "$program")" = "$("$plain" $case)" ] || { echo "the two differ at $case"; exit 1; }
    ours=$(seconds "echo $case | $program")
    theirs=$(seconds "$plain $case")
    echo "$case steps: $ours s here, $theirs s in C, ratio $(awk "BEGIN { printf \"%.2f\", $ours / $theirs }")"
done
