-- duckdb -bail < join_duckdb.sql, in the folder of the book: the same join by DuckDB. Debian has no package of it, so this file is
-- not among what the tests run. A sum of DECIMALs is exact, or an error where it has more than 38 digits.
CREATE TABLE reserves AS
  SELECT parse_filename(filename, true) AS product, month, state, lo, hi, tolerance
  FROM read_csv('reserves/*.csv', header = true, filename = true, columns = {
    'month': 'INTEGER', 'state': 'VARCHAR', 'what': 'VARCHAR',
    'lo': 'DECIMAL(38, 6)', 'hi': 'DECIMAL(38, 6)', 'tolerance': 'DECIMAL(38, 6)'});
CREATE TABLE policies AS
  SELECT * FROM read_csv('policies.csv', header = true, columns = {
    'policy': 'VARCHAR', 'product': 'VARCHAR', 'group': 'VARCHAR', 'month': 'INTEGER', 'state': 'VARCHAR'});

-- a row for each policy, by itself: no count is multiplied. A policy without a reserve is an error.
CREATE TABLE valued (
  "group" VARCHAR NOT NULL, lo DECIMAL(38, 6) NOT NULL, hi DECIMAL(38, 6) NOT NULL, tolerance DECIMAL(38, 6) NOT NULL);
INSERT INTO valued
  SELECT policies."group", reserves.lo, reserves.hi, reserves.tolerance
  FROM policies LEFT JOIN reserves
  ON policies.product = reserves.product AND policies.month = reserves.month AND policies.state = reserves.state;

COPY (
  SELECT "group", sum(lo) AS lo, sum(hi) AS hi, sum(tolerance) AS tolerance FROM valued GROUP BY "group" ORDER BY "group"
) TO 'totals.csv' (HEADER);
