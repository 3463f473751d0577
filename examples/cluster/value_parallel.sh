#!/usr/bin/env bash
# value_parallel.sh BOOK: the reserves of each month of each product in BOOK/products, as BOOK/reserves/PRODUCT.csv, by GNU
# parallel on the processors of this machine. A product that is refused ends the run, with the refusal in BOOK/reserves/PRODUCT.part.
# What stands already is not valued again, so a run that was cut off can go on.
set -eu
cd "$1"
mkdir -p reserves
export THIELE_CLI=${THIELE_CLI:-thiele_cli}
ls products/*.toml | parallel --halt now,fail=1 \
  '[ -e reserves/{/.}.csv ] || { "$THIELE_CLI" csv reserves {} 1 > reserves/{/.}.part && mv reserves/{/.}.part reserves/{/.}.csv; }'
