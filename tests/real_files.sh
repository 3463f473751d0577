#!/usr/bin/env bash
# Runs the built program on real files and devices: what no proof sees of the system's files and its output.
# The last line counts what passed and what failed.
set -u
top=$(cd "$(dirname "$0")/.." && pwd) || exit 2
program=$top/crates/thiele_cli/out/thiele_cli
# the program that was built last, as by the gate; where there is none, it is proved and built
[ -x "$program" ] || ( cd "$top/crates/thiele_cli" && rt run -- value "$top/examples/flat.toml" ) >/dev/null 2>&1
if [ ! -x "$program" ]; then
  echo "the program is not built: $program"
  echo "0 passed, 1 failed"
  exit 1
fi

work=$(mktemp -d) || exit 2
trap 'rm -rf "$work"' EXIT
passed=0
failed=0

# name, wanted status, wanted output, then the words
try() {
  local name=$1 status=$2 output=$3
  shift 3
  local found
  found=$("$program" "$@" 2>"$work/errors"; printf 'status %s' "$?")
  if [ "$found" = "${output}status $status" ] && [ ! -s "$work/errors" ]; then
    passed=$((passed + 1))
  else
    failed=$((failed + 1))
    printf 'FAILED %s: wanted\n%sstatus %s\nfound\n%s\n' "$name" "$output" "$status" "$found"
  fi
}

# name, the wanted first lines, then the words of a command that ends well
try_start() {
  local name=$1 start=$2
  shift 2
  local found
  found=$("$program" "$@" 2>"$work/errors"; printf 'status %s' "$?")
  if [ "${found#"$start"}" != "$found" ] && [ "${found##*$'\n'}" = 'status 0' ] && [ ! -s "$work/errors" ]; then
    passed=$((passed + 1))
  else
    failed=$((failed + 1))
    printf 'FAILED %s: wanted first\n%sfound\n%s\n' "$name" "$start" "$found"
  fi
}

no_reading=$'refused words\n'

cat >"$work/lump.toml" <<'TOML'
format = 1
name = "lump"
months = 12
den = 20
start = "on"
states = ["on"]
interest = [{ from = 0, c = [1] }]
lump = [{ month = 12, state = "on", amount = 10000 }]
TOML
printf 'format = 1\nname = "fl' >"$work/cut.toml"
{ cat "$top/examples/flat.toml"; head -c 1048576 /dev/zero | tr '\0' '#'; } | head -c 1048577 >"$work/long.toml"
head -c 1048576 "$work/long.toml" >"$work/longest.toml"

flat=$'report value flat\ndegree 8 scale 10\n0 on value 383.999999 384.000001 0.000003\nend 1\ncolumn 1\n0 0 0.000002\ncolumn 2\n0 0 +\n'
flat+=$'column 3\n0,0,value,383.999999,384.000001\n'
# by hand, in units of 2^-16: one cell pays 10^12 * 2^16 / 384, rounded up by a third, 16 to both sides; the map of its month, whose
# numbers are rounded outward in five doublings, is taken 1200 times, and the radius is 38,400 * 1024
largest=$'report value largest\ndegree 8 scale 48\n0 on value 99999999999400.241149 100000000000600.241150 1200.000002\nend 1\n'
largest+=$'column 1\n0 0 1200.000001\ncolumn 2\n0 0 +\n'
largest+=$'column 3\n0,0,value,99999999999400.241149,100000000000600.241150\n'
# 240000 (1 - exp(-1/20)) = 11704.938119828..: the whole millionths around it
interest=$'report value interest\ndegree 8 scale 15\n0 on value 11704.938119 11704.938120 0.000003\nend 1\n'
interest+=$'column 1\n0 0 0.000001\ncolumn 2\n0 0 +\ncolumn 3\n0,0,value,11704.938119,11704.938120\n'

try 'a flat file' 0 "$flat" value "$top/examples/flat.toml"
try 'the largest rate over the longest term' 0 "$largest" value "$top/examples/largest.toml"
try 'a file of 1,048,576 bytes' 0 "$flat" value "$work/longest.toml"
try 'a file of 1,048,577 bytes' 4 $'refused length 1048577\n' value "$work/long.toml"
# 10000 exp(-1/20) = 9512.294245007..
try_start 'a file with a lump' $'report value lump\ndegree 8 scale 14\n0 on value 9512.29424' value "$work/lump.toml"
try 'a file with interest' 0 "$interest" value "$top/examples/interest.toml"
# 40000000 (1 - exp(-3/10)) = 10367271.172731285..: an interval of at most 0.000017 that holds it starts with these digits
try_start 'an annuity certain' $'report value annuity-certain\ndegree 8 scale 25\n0 paid value 10367271.1727' \
  value "$top/examples/annuity-certain.toml"
try 'a file cut inside a string' 5 $'refused toml\n' value "$work/cut.toml"
try 'an empty file' 6 $'refused rule 1 place 0\n' value /dev/null
try 'a missing file' 3 '' value "$work/missing.toml"
try 'a folder for a file' 3 '' value "$work"
try 'no words' 2 "$no_reading"
try 'a word too few' 2 "$no_reading" value
try 'an unknown command' 2 "$no_reading" price "$top/examples/flat.toml"
try 'an empty name' 2 "$no_reading" value ''
try 'a seed that is too large' 2 "$no_reading" generate 18446744073709551616
try 'a word that is no text' 2 '' value $'\xff'
try 'a hundred thousand words' 2 "$no_reading" $(seq 100000)
try 'a pipe for a file' 0 "$flat" value <(cat "$top/examples/flat.toml")

try 'a second file of 1,048,577 bytes' 11 $'refused second length 1048577\n' \
  compare "$top/examples/flat.toml" "$work/long.toml" 1
try 'a second file cut inside a string' 11 $'refused second toml\n' compare "$top/examples/flat.toml" "$work/cut.toml" 1
try 'an empty second file' 11 $'refused second rule 1 place 0\n' compare "$top/examples/flat.toml" /dev/null 1
try 'a missing second file' 3 '' compare "$top/examples/flat.toml" "$work/missing.toml" 1
try 'a first file that is refused before the second is fetched' 5 $'refused toml\n' \
  compare "$work/cut.toml" "$work/missing.toml" 1
try 'bases of other terms' 16 $'refused compare part 1\n' \
  compare "$top/examples/disability.toml" "$top/examples/annuity.toml" 1
# twice the largest payments, without interest, and with the interest of the new basis
sed -e 's/396094500958/792189001916/' -e 's/c = \[-1\]/c = [0]/' "$top/tests/files/largest-bound.toml" >"$work/doubled.toml"
try 'a hybrid whose bound is too large' 13 $'refused derived rule 18 place 0\n' \
  compare "$work/doubled.toml" "$top/tests/files/largest-bound.toml" 1

# the flat file's interval of 384 at issue, by hand, is near one of three numbers, far from one, and neither from one
audited=$'audit flat\ndegree 8 eps 0.000001\n0 on 384.000000 383.999999 384.000001 yes\n'
audited+=$'0 on 384.000003 383.999999 384.000001 no\n0 on 384.000001 383.999999 384.000001 undecided\n'
audited+=$'end yes 1 no 1 undecided 1\n'
printf 'month,state,reserve\n0,on,384\n0,on,384.000003\n0,on,384.000001\n' >"$work/claims.csv"
try 'three claims' 0 "$audited" audit "$top/examples/flat.toml" "$work/claims.csv" 0.000001
# a byte order mark, quotes, carriage returns, an empty line, and no end of the last line
printf '\xef\xbb\xbf"month","state",reserve\r\n0,"on",384\r\n\r\n0,on,384.000003\r\n0,on,"384.000001"' >"$work/sheet.csv"
try 'claims as a spreadsheet writes them' 0 "$audited" audit "$top/examples/flat.toml" "$work/sheet.csv" 0.000001
printf 'month,state,reserve\n' >"$work/header.csv"
try 'no claims' 0 $'audit flat\ndegree 8 eps 0.000000\nend yes 0 no 0 undecided 0\n' \
  audit "$top/examples/flat.toml" "$work/header.csv" 0
printf 'month,state,reserve\n0,on,384\n13,on,0\n0,off,x\n' >"$work/past.csv"
try 'a claim past the term' 14 $'refused row 2 part 2\n' audit "$top/examples/flat.toml" "$work/past.csv" 0.1
printf 'month,state,reserve\n0,off,x\n' >"$work/state.csv"
try 'a claim about no state' 14 $'refused row 1 part 3\n' audit "$top/examples/flat.toml" "$work/state.csv" 0.1
printf 'month,state,reserve\n0,on,3e2\n' >"$work/reserve.csv"
try 'a claim that is no decimal' 14 $'refused row 1 part 4\n' audit "$top/examples/flat.toml" "$work/reserve.csv" 0.1
printf 'month,state,reserve\n0,on\n' >"$work/fields.csv"
try 'a claim of two fields' 14 $'refused row 1 part 1\n' audit "$top/examples/flat.toml" "$work/fields.csv" 0.1
try 'an empty file of claims' 14 $'refused row 0 part 0\n' audit "$top/examples/flat.toml" /dev/null 0.1
try 'a file of claims of 1,048,577 bytes' 11 $'refused second length 1048577\n' \
  audit "$top/examples/flat.toml" "$work/long.toml" 0.1
try 'a missing file of claims' 3 '' audit "$top/examples/flat.toml" "$work/missing.csv" 0.1
try 'a distance with a sign' 2 "$no_reading" audit "$top/examples/flat.toml" "$work/claims.csv" -0.1

try 'a second life of a shorter term' 12 $'refused join part 1\n' \
  join "$top/tests/values/active-annuity.toml" "$top/tests/values/back-and-forth.toml"
try 'more than twelve pairs of states' 12 $'refused join part 3\n' \
  join "$top/tests/values/ring-of-eight.toml" "$top/tests/values/ring-of-eight.toml"
try 'an empty second life' 11 $'refused second rule 1 place 0\n' join "$top/tests/values/active-annuity.toml" /dev/null

# holdings as spreadsheets write them: a byte order mark, quoted fields, CR LF, an empty line, and a last line without end;
# twice 384 minor units within 0.000001, and nothing at the term
printf '\xef\xbb\xbf"file",group,month,state,count\r\n%s,2020,0,"on",2\r\n\r\n%s,2021,12,on,5\r\n%s,2020,12,on,5' \
  "$top/examples/flat.toml" "$top/examples/flat.toml" "$top/examples/flat.toml" >"$work/holdings.csv"
totals=$'portfolio\ndegree 8 policies 3 groups 2\n2020 767.999998 768.000002 0.000016\n2021 0.000000 0.000000 0.000010\nend 2\n'
totals+=$'column 1\n0 0 0.000004\n0 1 0.000000\ncolumn 2\n0 0 +\n0 1 0\n'
totals+=$'column 3\n0,0,total,767.999998,768.000002\n0,1,total,0.000000,0.000000\n'
try 'holdings of two groups' 0 "$totals" portfolio "$work/holdings.csv"
# 24000 (1 - exp(-1/2)) = 9443.264166896..: an interval of at most 0.000003 that holds it starts with these digits
printf 'file,group,month,state,count\n%s,y,0,active,1\n' "$top/tests/values/active-annuity.toml" >"$work/one.csv"
try_start 'a holding of an annuity' $'portfolio\ndegree 8 policies 1 groups 1\ny 9443.26416' portfolio "$work/one.csv"
printf 'file,group,month,state,count\n' >"$work/none.csv"
try 'no holdings' 0 $'portfolio\ndegree 8 policies 0 groups 0\nend 0\ncolumn 1\ncolumn 2\ncolumn 3\n' \
  portfolio "$work/none.csv"
printf 'file,group,month,state,count\n%s,x,0,on,0\n' "$work/missing.toml" >"$work/count.csv"
try 'a holding of no contract' 14 $'refused row 1 part 5\n' portfolio "$work/count.csv"
printf 'file,group,month,state,count\n%s,x,13,on,1\n/dev/null,x,0,on,1\n' "$top/examples/flat.toml" >"$work/empty.csv"
try 'a holding of an empty product file' 15 $'refused policy file 1 rule 1 place 0\n' portfolio "$work/empty.csv"
printf 'file,group,month,state,count\n%s,x,0,on,1\n%s,x,13,on,1\n' "$work/long.toml" "$work/missing.toml" >"$work/too-long.csv"
try 'a holding of a product file of 1,048,577 bytes' 15 $'refused policy file 0 length 1048577\n' portfolio "$work/too-long.csv"
printf 'file,group,month,state,count\n%s,x,12,on,1\n%s,x,13,on,1\n' \
  "$top/examples/flat.toml" "$top/examples/flat.toml" >"$work/late.csv"
try 'a holding behind the term' 14 $'refused row 2 part 6\n' portfolio "$work/late.csv"
printf 'file,group,month,state,count\n%s,x,0,on,1\n' "$work/missing.toml" >"$work/missing.csv"
try 'a holding of a missing product file' 3 '' portfolio "$work/missing.csv"
try 'a product file for holdings' 14 $'refused row 0 part 0\n' portfolio "$top/examples/flat.toml"
try 'holdings of 1,048,577 bytes' 4 $'refused length 1048577\n' portfolio "$work/long.toml"
try 'a portfolio of no file' 2 "$no_reading" portfolio ''

# how each file of `files` is judged: `ok`, the product's name and how much it has of what; or the line that refuses it
while read -r name verdict <&3; do
  case $verdict in
    ok\ *)
      verdict=${verdict#ok }
      try_start "$name" "check ${verdict%% *}"$'\n'"${verdict#* }"$'\n' check "$top/tests/files/$name"
      ;;
    'refused toml') try "$name" 5 "$verdict"$'\n' check "$top/tests/files/$name" ;;
    *) try "$name" 6 "$verdict"$'\n' check "$top/tests/files/$name" ;;
  esac
done 3<"$top/tests/files/verdicts.txt"

# all lines of `check`, from a computation in exact fractions outside the program
for wanted in "$top"/tests/files/limits/*.txt; do
  name=$(basename "$wanted" .txt)
  try "the limits of $name" 0 "$(cat "$wanted")"$'\n' check "$top/tests/files/$name.toml"
done
for wanted in "$top"/tests/files/examples/*.txt; do
  name=$(basename "$wanted" .txt)
  try "the example $name" 0 "$(cat "$wanted")"$'\n' check "$top/examples/$name.toml"
done

# a product file that the program writes is one that it reads
"$program" generate 7 >"$work/generated-7.toml" 2>"$work/errors"
try_start 'a generated file' $'check generated-7\nstates 3 months 780 transitions 4 lumps 780\n' \
  check "$work/generated-7.toml"

# with the least memory with which the program starts, there is none for its words; below that the system refuses it
status=127
for limit in $(seq 2000 20 8000); do
  (ulimit -v "$limit"; exec "$program" value "$top/examples/flat.toml") >"$work/output" 2>"$work/errors"
  status=$?
  [ "$status" -eq 127 ] || break
done
if [ "$status" -eq 9 ] && [ ! -s "$work/output" ] && [ ! -s "$work/errors" ]; then
  passed=$((passed + 1))
else
  failed=$((failed + 1))
  echo "FAILED the least memory: wanted status 9, found $status"
fi

# a small stack is enough
if [ "$(ulimit -s 64; "$program" value "$top/examples/flat.toml")" = "${flat%$'\n'}" ]; then
  passed=$((passed + 1))
else
  failed=$((failed + 1))
  echo "FAILED a stack of 64 KiB"
fi

# a pipe that nobody reads any more takes nothing, nor does an output that is closed
(sleep 0.2; exec "$program" generate 7 2>"$work/errors") | true
status=${PIPESTATUS[0]}
if [ "$status" -eq 8 ] && [ ! -s "$work/errors" ]; then
  passed=$((passed + 1))
else
  failed=$((failed + 1))
  echo "FAILED a closed pipe: wanted status 8, found $status"
fi
"$program" value "$top/examples/flat.toml" >&- 2>"$work/errors"
status=$?
if [ "$status" -eq 8 ] && [ ! -s "$work/errors" ]; then
  passed=$((passed + 1))
else
  failed=$((failed + 1))
  echo "FAILED a closed output: wanted status 8, found $status"
fi

# a full device takes nothing
for words in "value $top/examples/flat.toml" 'generate 0'; do
  "$program" "${words%% *}" "${words#* }" >/dev/full 2>"$work/errors"
  status=$?
  if [ "$status" -eq 8 ] && [ ! -s "$work/errors" ]; then
    passed=$((passed + 1))
  else
    failed=$((failed + 1))
    echo "FAILED a full device, $words: wanted status 8, found $status"
  fi
done

echo "$passed passed, $failed failed"
[ "$failed" -eq 0 ]
