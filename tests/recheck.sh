#!/usr/bin/env bash
# Has tools/recheck.py check what the built program prints of the products of examples/ and tests/values/, then reports
# and products with one fault each, which it must find and place. The last line counts what passed and what failed.
set -u
cd "$(dirname "$0")/.." || exit 2
program=$PWD/crates/thiele_cli/out/thiele_cli
if [ ! -x "$program" ]; then
  echo "the program is not built: $program"
  echo "recheck: 0 passed, 1 failed"
  exit 1
fi
exec python3 - "$program" <<'PYTHON'
import concurrent.futures, pathlib, subprocess, sys, tempfile

program, work = sys.argv[1], tempfile.TemporaryDirectory()
passed = failed = 0


def told(name, fault):
    """Counts a test, which has failed where there is a fault."""
    global passed, failed
    passed, failed = passed + (not fault), failed + bool(fault)
    if fault:
        print(f"FAILED {name}: {fault}")


def report_of(file, every=1):
    return subprocess.run([program, "reserves", file, str(every)], capture_output=True, text=True).stdout


def recheck(file, report, *every):
    """The exit status of the check, the line that it names, and all that it says."""
    with tempfile.NamedTemporaryFile("w", dir=work.name, delete=False) as copy:
        copy.write(report)
    ran = subprocess.run([sys.executable, "tools/recheck.py", file, copy.name, *every], capture_output=True, text=True)
    line = int(ran.stdout[5:].split(":")[0]) if ran.stdout.startswith("line ") else None
    return ran.returncode, line, ran.stdout + ran.stderr


def agrees(file, *every):
    status, _, text = recheck(file, report_of(file, *every), *every)
    return file, "" if status == 0 else f"status {status}: {text}"


def rows_of(report):
    """The rows of a report: month, state, and in millionths the ends and the tolerance."""
    lines = report.split("\n")
    rows = [line.split(" ") for line in lines[2:lines.index("column 1") - 1]]
    return [[int(month), state, *(int(end.replace(".", "")) for end in ends)] for month, state, _, *ends in rows]


def decimal(millionths):
    digits = str(abs(millionths)).rjust(7, "0")
    return "-" * (millionths < 0) + digits[:-6] + "." + digits[-6:]


def text_of(head, states, rows):
    """The whole text with these rows: so that a row with a fault is restated by the columns as a right one is."""
    lines, columns = [], ([], [], [])
    for month, state, low, high, tolerance in rows:
        lines.append(f"{month} {state} reserve {decimal(low)} {decimal(high)} {decimal(tolerance)}")
        sign = "+" if low > 0 else "-" if high < 0 else "0" if low == high == 0 else "?"
        place = states.index(state)
        columns[0].append(f"{month} {place} {decimal(high - low)}")
        columns[1].append(f"{month} {place} {sign}")
        columns[2].append(f"{month},{place},reserve,{decimal(low)},{decimal(high)}")
    lines = [*head, *lines, f"end {len(rows)}"]
    for number, column in enumerate(columns, 1):
        lines += [f"column {number}", *column]
    return "\n".join([*lines, ""])


def planted(name, line, file, report, *every):
    """The check must find what is wrong with the report, and name its line."""
    status, found, text = recheck(file, report, *every)
    told(name, "" if (status, found) == (1, line) else f"wanted line {line}, found status {status}: {text}")


products = sorted(str(file) for folder in ("examples", "tests/values") for file in pathlib.Path(folder).glob("*.toml"))
with concurrent.futures.ThreadPoolExecutor() as pool:
    for file, fault in pool.map(agrees, products):
        told(file, fault)
told(*agrees("examples/disability.toml", "120"))

file, states = "examples/disability.toml", ["active", "disabled", "dead"]
right, product = report_of(file), pathlib.Path(file).read_text(encoding="utf-8")
head, rows = right.split("\n")[:2], rows_of(right)
told("the text of right rows", "" if text_of(head, states, rows) == right else "another text")
# the row of an active life at month 100, and of a disabled one: three rows a month, and two lines above them
K = 300


def with_row(place, month=0, low=0, high=0, tolerance=0):
    """The report whose row at this place has so much added."""
    changed = [list(row) for row in rows]
    for part, added in ((0, month), (2, low), (3, high), (4, tolerance)):
        changed[place][part] += added
    return text_of(head, states, changed)


width = rows[K][3] - rows[K][2]
planted("a digit of a lower end", K + 3, file, with_row(K, low=1000))
planted("a digit of an upper end", K + 3, file, with_row(K, high=-1000))
planted("an interval that is moved by its width", K + 3, file, with_row(K, low=width, high=width))
planted("an interval that is moved the other way", K + 3, file, with_row(K, low=-width, high=-width))
planted("a wide interval beside the solution", K + 3, file, with_row(K, low=width, high=10**6, tolerance=10**6))
planted("an interval wider than its tolerance", K + 3, file, with_row(K, low=width - rows[K][4] - 1))
planted("ends turned round", K + 3, file, with_row(K, low=width, high=-width))
planted("another sign", K + 3, file, with_row(K, low=-2 * rows[K][2] - width, high=-2 * rows[K][2] - width))
planted("a reserve at the term", 2 + len(rows), file, with_row(-1, low=1, high=1))
planted("another month", K + 3, file, with_row(K, month=1))

swapped = [list(row) for row in rows]
swapped[K][2:], swapped[K + 1][2:] = rows[K + 1][2:], rows[K][2:]
planted("the numbers of two states swapped", K + 3, file, text_of(head, states, swapped))
swapped = [*rows[:K], rows[K + 1], rows[K], *rows[K + 2:]]
planted("the rows of two states swapped", K + 3, file, text_of(head, states, swapped))
planted("a row left out", K + 3, file, text_of(head, states, rows[:K] + rows[K + 1:]))
planted("a row twice", K + 4, file, text_of(head, states, rows[:K + 1] + rows[K:]))
planted("a month left out", K + 3, file, text_of(head, states, rows[:K] + rows[K + 3:]))
planted("no term", 3 + len(rows) - 3, file, text_of(head, states, rows[:-3]))
shifted = [[*row[:2], *later[2:]] for row, later in zip(rows, rows[3:])] + rows[-3:]
planted("months shifted from the first on", 3, file, text_of(head, states, shifted))
planted("months shifted from month 100 on", K + 3, file, text_of(head, states, rows[:K] + shifted[K:]))

lines = right.split("\n")
for name, old, new in [
    ("the count of rows", f"end {len(rows)}", f"end {len(rows) + 1}"),
    ("a width", lines[K + 4 + len(rows)], "100 0 0.000000"),
    ("a sign", "100 0 +", "100 0 -"),
    ("an end in a column", lines[K + 6 + 3 * len(rows)],
     f"100,0,reserve,{decimal(rows[K][2] + 1)},{decimal(rows[K][3])}"),
    ("another name", head[0], "report reserves endowment"),
    ("another report", head[0], "report moments disability"),
    ("no scale", head[1], "degree 8"),
]:
    place = lines.index(old)
    planted(name, place + 1, file, "\n".join([*lines[:place], new, *lines[place + 1:]]))
planted("a text that ends in a row", K + 3, file, "\n".join(lines[:K + 2]) + "\n" + lines[K + 2][:-3])
planted("a text without its columns", 4 + len(rows), file, "\n".join(lines[:3 + len(rows)]) + "\n")
planted("a line after the end", len(lines), file, right + "0 active reserve 0.000000 0.000000 0.000002\n")
planted("nothing", 1, file, "")
planted("rows of each year for those of each month", 6, file, report_of(file, 12))
planted("the report of another product", 1, file, report_of("examples/term-life.toml"))



def changed(file, old, new):
    """A copy of the file with this one change."""
    text = pathlib.Path(file).read_text(encoding="utf-8")
    assert text.count(old) >= 1, old
    with tempfile.NamedTemporaryFile("w", dir=work.name, suffix=".toml", delete=False) as copy:
        copy.write(text.replace(old, new, 1))
    return copy.name


# the report of one product, and the file of another: from the first row on they don't agree
endowment, falling = "examples/endowment.toml", "tests/files/falling.toml"
for name, file, old, new in [
    ("an intensity", file, "c = [835, 87]", "c = [836, 87]"),
    ("the slope of an intensity", file, "c = [217320, -13592]", "c = [217320, -13591]"),
    ("a force of interest", file, "c = [30000]", "c = [30001]"),
    ("a denominator", file, "den = 1000000", "den = 1000001"),
    ("a rate of payment", file, "amount = 2400000", "amount = 2400001"),
    ("a piece from a month later on", file, "from = 300", "from = 301"),
    ("a term", file, "months = 360", "months = 361"),
    ("a sum at death", endowment, "amount = 10000000", "amount = 10000001"),
    ("a lump sum", endowment, 'state = "alive"\namount = 10000000', 'state = "alive"\namount = 9999999'),
    ("the month of a lump sum", endowment, "month = 300", "month = 299"),
    ("the state of a lump sum", endowment, 'month = 300\nstate = "alive"', 'month = 300\nstate = "dead"'),
    ("the fifth power of an intensity", falling, "c = [10000, 0, 0, 0, 0, 1]", "c = [10000, 0, 0, 0, 0, 2]"),
    ("the slope of a sum", falling, "c = [100000, -20000]", "c = [100000, -20001]"),
]:
    planted(f"the file has another: {name}", 3, changed(file, old, new), report_of(file))

# what is no product, or no file
for name, file in [
    ("a negative intensity", "tests/files/negative-intensity.toml"),
    ("no TOML", "tests/files/two-signs.toml"),
    ("a key that is missing", "tests/files/cut-after-den.toml"),
    ("a third format", "tests/files/third-format.toml"),
    ("a state twice", "tests/files/fourth-state-named-twice.toml"),
    ("no denominator", "tests/files/den-is-zero.toml"),
    ("a transition twice", "tests/files/same-transition-twice.toml"),
    ("a piece after the term", "tests/files/piece-starts-after-the-term.toml"),
    ("a key that is unknown", "tests/files/sojourn-with-another-key.toml"),
    ("a lump sum without a month", "tests/files/month-of-a-lump-is-an-array.toml"),
    ("a float", changed("examples/flat.toml", "amount = 384", "amount = 384.0")),
    ("a lump sum twice", changed("tests/values/lump-at-issue.toml", "lump = [",
                                 'lump = [{ month = 0, state = "on", amount = 1 }, ')),
    ("no file", "tests/files/there-is-none.toml"),
]:
    status, _, text = recheck(file, right)
    right_end = status == 2 and text.startswith("recheck: ")
    told(name, "" if right_end else f"wanted status 2, found status {status}: {text}")
for name, words in [("no report", [file]), ("EVERY 0", ["examples/flat.toml", "examples/flat.toml", "0"])]:
    ran = subprocess.run([sys.executable, "tools/recheck.py", *words], capture_output=True, text=True)
    told(name, "" if ran.returncode == 2 else f"status {ran.returncode}: {ran.stdout}")
work.cleanup()
print(f"recheck: {passed} passed, {failed} failed")
raise SystemExit(failed > 0)
PYTHON
