#!/usr/bin/env bash
# join_sqlite.sh BOOK: the total of each group, as BOOK/totals.csv, by a join of BOOK/policies.csv with the reserves of all products.
set -eu
here=$(cd "$(dirname "$0")" && pwd)
cd "$1"
# all reserves in one file, with the product in front
awk -F, 'FNR == 1 { product = FILENAME; sub(/.*\//, "", product); sub(/\.csv$/, "", product); next }
  { print product "," $0 }' reserves/*.csv >reserves-of-all.csv
rm -f book.db
sqlite3 -batch -bail book.db <"$here/join_sqlite.sql"
