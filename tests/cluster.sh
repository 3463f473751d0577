#!/usr/bin/env bash
# Values a small book of policies by the scripts of examples/cluster, by each engine that is installed: GNU parallel, the script
# of the Slurm array (by Slurm itself where a cluster answers), SQLite, and the tool's own `portfolio` and `merge`. All have to
# come to the same totals, and so has a sum in exact fractions. The last line counts what passed and what failed.
set -u
cd "$(dirname "$0")/.." || exit 2
export THIELE_CLI=${THIELE_CLI:-$PWD/crates/thiele_cli/out/thiele_cli}
if [ ! -x "$THIELE_CLI" ]; then
  echo "the program is not built: $THIELE_CLI"
  echo "cluster: 0 passed, 1 failed"
  exit 1
fi
work=$(mktemp -d) || exit 2
trap 'rm -rf "$work"' EXIT
passed=0
failed=0

# name, then a command that has to end well
try() {
  local name=$1
  shift
  if "$@" >"$work/output" 2>&1; then
    passed=$((passed + 1))
  else
    failed=$((failed + 1))
    echo "FAILED $name: status $?"
    head -5 "$work/output"
  fi
}

# name, then a command that has to be refused
try_refused() {
  local name=$1
  shift
  if "$@" >"$work/output" 2>&1; then
    failed=$((failed + 1))
    echo "FAILED $name: it is not refused"
  else
    passed=$((passed + 1))
  fi
}

# whether all programs are installed, which is said where they are not
has() {
  local program
  for program in "$@"; do
    command -v "$program" >/dev/null || { echo "left out: $program is not installed"; return 1; }
  done
}

same_rows() { cmp <(sort "$1") <(sort "$2"); }

book=$work/book
try 'a book is made' python3 examples/cluster/make_book.py "$book" 2000
# the products of the shortest term alone, and the policies of these
rm "$book"/products/*-[23]0.toml
sed -i '/-[23]0,/d' "$book/policies.csv"

# a task of an array of two, as Slurm would start it
task() {
  SLURM_ARRAY_TASK_ID=$1 SLURM_ARRAY_TASK_MIN=0 SLURM_ARRAY_TASK_COUNT=2 bash examples/cluster/value_slurm.sh "$book"
}
try 'the first task of an array' task 0
try 'it values every second product' [ "$(ls "$book/reserves" | wc -l)" -eq 2 ]
try 'the second task of an array' task 1
try 'each product has its reserves' [ "$(ls "$book"/reserves/*.csv | wc -l)" -eq 4 ]
mv "$book/reserves" "$work/by-tasks"
if has parallel; then
  try 'GNU parallel' bash examples/cluster/value_parallel.sh "$book"
  try 'the same reserves' diff -r "$work/by-tasks" "$book/reserves"
  printf 'no product' >"$book/products/none.toml"
  try_refused 'a product that is refused ends GNU parallel' bash examples/cluster/value_parallel.sh "$book"
  rm "$book/products/none.toml" "$book"/reserves/*.part
else
  cp -r "$work/by-tasks" "$book/reserves"
fi
if has sbatch sinfo && timeout 10 sinfo >/dev/null 2>&1; then
  mv "$book/reserves" "$work/before"
  try 'Slurm' sbatch --wait --array=0-1 --output="$work/%A_%a.out" examples/cluster/value_slurm.sh "$book"
  try 'the same reserves by Slurm' diff -r "$work/by-tasks" "$book/reserves"
else
  echo "left out: Slurm, since no cluster answers"
fi

# the totals in exact fractions, from the same reserves
sum_up() {
  python3 - "$book" >"$work/wanted.csv" <<'PYTHON'
import collections, csv, pathlib, sys
from fractions import Fraction

book, reserves, totals = pathlib.Path(sys.argv[1]), {}, collections.defaultdict(lambda: [Fraction(0)] * 3)
for path in (book / "reserves").glob("*.csv"):
    for row in csv.DictReader(path.open()):
        reserves[path.stem, row["month"], row["state"]] = [Fraction(row[key]) for key in ("lo", "hi", "tolerance")]
for row in csv.DictReader((book / "policies.csv").open()):
    ends = reserves[row["product"], row["month"], row["state"]]
    totals[row["group"]] = [sum(both) for both in zip(totals[row["group"]], ends)]


def decimal(number):
    digits = str(abs(int(number * 10**6))).rjust(7, "0")
    return "-" * (number < 0) + digits[:-6] + "." + digits[-6:]


print("group,lo,hi,tolerance")
for group, ends in totals.items():
    print(",".join([group, *map(decimal, ends)]))
PYTHON
}
try 'the totals in fractions' sum_up
try 'there are twenty groups' [ "$(wc -l <"$work/wanted.csv")" -eq 21 ]
if has parallel; then
  try 'portfolios and their merge' bash examples/cluster/totals_merge.sh "$book"
  try 'the same totals by merge' same_rows "$work/wanted.csv" "$book/merged.csv"
fi
if has sqlite3; then
  try 'SQLite' bash examples/cluster/join_sqlite.sh "$book"
  try 'the same totals by SQLite' same_rows "$work/wanted.csv" "$book/totals.csv"
  # what is not exact, or is not there, is refused and not left out of a sum
  sed -n 2p "$book/policies.csv" | sed 's/,[a-z]*$/,gone/' >>"$book/policies.csv"
  try_refused 'a policy without a reserve' bash examples/cluster/join_sqlite.sh "$book"
  sed -i '$d' "$book/policies.csv"
  sed -i '2s/reserve,[^,]*/reserve,9223372036854.000000/' "$book"/reserves/*.csv
  IFS=, read -r policy product group rest <<<"$(sed -n 2p "$book/policies.csv")"
  printf '%s\n' {1,2,3}",$product,$group,0,active" >>"$book/policies.csv"
  try_refused 'a sum beyond 64 bits' bash examples/cluster/join_sqlite.sh "$book"
fi
echo "cluster: $passed passed, $failed failed"
[ "$failed" -eq 0 ]
