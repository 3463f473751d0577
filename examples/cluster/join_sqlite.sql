-- Amounts are whole millionths, as INTEGER: a STRICT table takes no other number, so each one that is too large is an error.
-- A product of two that is too large would be a REAL, and so would its sum: `totals` takes no such sum. A sum of INTEGERs that
-- is too large is an error by itself. So what stands in `totals` is exact.
CREATE TABLE printed (product TEXT, month TEXT, state TEXT, what TEXT, lo TEXT, hi TEXT, tolerance TEXT);
CREATE TABLE policies (policy TEXT, product TEXT, "group" TEXT, month INTEGER, state TEXT);
.mode csv
.import reserves-of-all.csv printed
.import --skip 1 policies.csv policies

CREATE TABLE reserves (
  product TEXT, month INTEGER, state TEXT, lo INTEGER NOT NULL, hi INTEGER NOT NULL, tolerance INTEGER NOT NULL,
  PRIMARY KEY (product, month, state)
) STRICT, WITHOUT ROWID;
INSERT INTO reserves
  SELECT product, month, state, replace(lo, '.', ''), replace(hi, '.', ''), replace(tolerance, '.', '') FROM printed;

CREATE TABLE totals (
  "group", lo, hi, tolerance, missing,
  CHECK (missing = 0), CHECK (typeof(lo) = 'integer' AND typeof(hi) = 'integer' AND typeof(tolerance) = 'integer')
);
INSERT INTO totals
  SELECT "group", sum(count * lo), sum(count * hi), sum(count * tolerance), sum(lo IS NULL)
  FROM (SELECT product, "group", month, state, count(*) AS count FROM policies GROUP BY product, "group", month, state)
  LEFT JOIN reserves USING (product, month, state)
  GROUP BY "group";

.headers on
.output totals.csv
.separator , "\n"
SELECT "group",
  printf('%s%d.%06d', iif(lo < 0, '-', ''), abs(lo) / 1000000, abs(lo) % 1000000) AS lo,
  printf('%s%d.%06d', iif(hi < 0, '-', ''), abs(hi) / 1000000, abs(hi) % 1000000) AS hi,
  printf('%d.%06d', tolerance / 1000000, tolerance % 1000000) AS tolerance
FROM totals ORDER BY "group";
