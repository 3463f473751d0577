#!/usr/bin/env bash
# totals_merge.sh BOOK: the total of each group, as BOOK/merged.csv, by the tool alone: BOOK/policies.csv is cut into shards of one
# product each, `csv portfolio` adds up each shard, and `csv merge` adds up what they print, many at a time.
set -eu
cd "$1"
export THIELE_CLI=${THIELE_CLI:-thiele_cli}
rm -rf shards totals
mkdir shards totals
# a line for each product, group, month and state, with its count: at most 1,000,000 policies a line, and 5,000 lines a shard
awk -F, 'NR > 1 { count[$2 "," $3 "," $4 "," $5]++ }
  END {
    for (key in count) {
      for (left = count[key]; left > 0; left -= 1000000) print key "," (left < 1000000 ? left : 1000000)
    }
  }' policies.csv | LC_ALL=C sort | awk -F, '$1 != product || lines == 5000 {
    if (shard) close(shard)
    product = $1; lines = 0; shard = "shards/" ++shards ".csv"
    print "file,group,month,state,count" >shard
  }
  { lines++; print "products/" $1 ".toml," $2 "," $3 "," $4 "," $5 >shard }'
ls shards/*.csv | parallel --halt now,fail=1 '"$THIELE_CLI" csv portfolio {} > totals/{/}'

# as many texts at a time as fit into 1,048,576 bytes, until one is left
while [ "$(ls totals | wc -l)" -gt 1 ]; do
  largest=$(stat -c %s totals/* | sort -n | tail -1)
  if [ $((largest * 2)) -gt 1048576 ]; then
    echo "there are too many groups: merge parts of them" >&2
    exit 1
  fi
  rm -rf merged
  mkdir merged
  ls totals/* | parallel --halt now,fail=1 -N $((1048576 / largest)) \
    'cat {} >merged/{#}.all && "$THIELE_CLI" csv merge merged/{#}.all >merged/{#}.csv && rm merged/{#}.all'
  rm -rf totals
  mv merged totals
done
mv totals/* merged.csv
rmdir totals
