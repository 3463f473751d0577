#!/usr/bin/env bash
# Runs every command of the built program on files that are made from a seed, and checks what can be checked without a
# second implementation: `tests/random_files.sh [FILES [SEED]]`. A file is a random product of either format, often with one
# value at a limit or just beyond it, and often damaged as a text. A file that fails is kept, and named. The last line counts
# what passed and what failed.
set -u
cd "$(dirname "$0")/.." || exit 2
program=$PWD/crates/thiele_cli/out/thiele_cli
if [ ! -x "$program" ]; then
  echo "the program is not built: $program"
  echo "0 passed, 1 failed"
  exit 1
fi
exec python3 - "$program" "${1:-20000}" "${2:-1}" <<'PYTHON'
import concurrent.futures, csv, io, json, os, pathlib, random, subprocess, sys, tempfile, tomllib
from fractions import Fraction

program, count, seed = sys.argv[1], int(sys.argv[2]), int(sys.argv[3])
MILLION, BILLION = 10**6, 10**12
# the texts of refusals, by status
REFUSALS = {4: "refused length ", 5: "refused toml", 6: "refused rule ", 7: "refused premium low ",
            13: "refused derived rule ", 14: "refused row ", 17: "refused change part "}


def table(pairs):
    """An inline table."""
    return "{ " + ", ".join(f"{key} = {value}" for key, value in pairs) + " }"


def starts(rng, months, most):
    """The months in which pieces start, the first of them 0."""
    return [0] + sorted(rng.sample(range(1, months), min(months - 1, rng.randrange(most))))


class Product:
    """A product that breaks no rule, as the text of a file; `limits` are values to put at a limit, or beyond it."""

    def __init__(self, rng):
        self.rng, self.format = rng, rng.choice([1, 2])
        self.months = rng.choice([1, 2, 11, 12, 13, 24, 36, rng.randrange(1, 60)])
        self.den = rng.choice([1000, MILLION, MILLION, 10**9, BILLION])
        self.states = [f"s{i}" for i in range(rng.choice([1, 2, 2, 3, 3, 4, 8, 12 if self.format == 2 else 8]))]
        self.start = rng.choice(self.states)

    def curve(self, least, most):
        """Pieces of a rate between these bounds over their months, as numerators."""
        rng, pieces = self.rng, []
        froms = starts(rng, self.months, 3)
        for start, end in zip(froms, froms[1:] + [self.months]):
            degree = rng.choice([0, 0, 1, 2, 3, 5 if self.format == 2 else 3])
            low, high = sorted((rng.randint(least, most), rng.randint(least, most)))
            # what is added to `low` over the piece, power by power, is not negative and at most `high - low` in all
            years = Fraction(max(end - start, 12), 12)
            further = [int((high - low) / (degree * years**power)) for power in range(1, degree + 1)]
            pieces.append(table([("from", start), ("c", [low] + [rng.randint(0, each) for each in further])]))
        return "[" + ", ".join(pieces) + "]"

    def steps(self, most):
        rng, steps = self.rng, []
        for start in starts(rng, self.months, 3):
            amount = rng.choice([0, rng.randint(-most, most)])
            if self.format == 1:
                steps.append(table([("from", start), ("amount", amount)]))
            else:
                further = [rng.randint(-most // 50, most // 50) for _ in range(rng.choice([0, 0, 1, 3]))]
                steps.append(table([("from", start), ("c", [amount] + further)]))
        return "[" + ", ".join(steps) + "]"

    def lines(self):
        rng = self.rng
        most = 10 ** rng.choice([2, 5, 8, 11])
        told = [f"format = {self.format}", f'name = "random-{rng.randrange(1000)}"', f"months = {self.months}",
                f"den = {self.den}", f'start = "{self.start}"', f"states = {self.states}".replace("'", '"'),
                f"interest = {self.curve(-(self.den // 60), self.den // 5)}"]
        pairs = [(a, b) for a in self.states for b in self.states if a != b]
        rng.shuffle(pairs)
        for a, b in pairs[: rng.randrange(len(pairs) + 1)]:
            told += ["", "[[transition]]", f'from = "{a}"', f'to = "{b}"',
                     f"rate = {self.curve(0, 2 * self.den // (len(self.states)))}"]
            if rng.random() < 0.5:
                told.append(f"sum = {self.steps(most)}")
        for state in rng.sample(self.states, rng.randrange(len(self.states) + 1)):
            told += ["", "[[sojourn]]", f'state = "{state}"', f"steps = {self.steps(most)}"]
        paid = {(rng.choice([0, self.months, rng.randrange(self.months + 1)]), rng.choice(self.states))
                for _ in range(rng.randrange(4))}
        for month, state in sorted(paid):
            told += ["", "[[lump]]", f"month = {month}", f'state = "{state}"',
                     f"amount = {rng.randint(-most, most)}"]
        if rng.random() < 0.7:
            payers = rng.sample(self.states, rng.randint(1, len(self.states)))
            told += ["", "[premium]", f"payers = {payers}".replace("'", '"'),
                     f"until = {rng.randint(1, self.months)}", f"every = {rng.choice([0, 1, 3, 12, 1200])}"]
        return told


# values to put in the place of a whole number: limits of rules and of the format, and what is no whole number
LIMITS = ["0", "-1", "1", "2", "3", "8", "12", "1200", "1201", "1000000000000", "-1000000000000", "1000000000001",
          "2000000", "2000001", "250000", "250001", "-20000", "-20001", "9223372036854775807", "-9223372036854775808",
          "9223372036854775808", "1.0", "true", '"1"', "[]", "{}", "nan", "0x10", "1_000", "+5", "1979-05-27"]


def damaged(rng, lines):
    """The text of these lines, with a limit in the place of a number, or with damage."""
    text, kind = "\n".join(lines) + "\n", rng.randrange(10)
    if kind < 4:
        return text
    if kind < 7:
        numbers, at = [], 0
        while at < len(text):
            end = at
            while end < len(text) and (text[end].isdigit() or end == at and text[end] == "-"):
                end += 1
            if end > at and (at == 0 or text[at - 1] in " [,"):
                numbers.append((at, end))
            at = max(end, at + 1)
        at, end = rng.choice(numbers)
        return text[:at] + rng.choice(LIMITS + [str(int(text[at:end] or 0) + 1)] if text[at:end] != "-" else LIMITS) + text[end:]
    if kind == 7:
        at = rng.randrange(len(lines))
        return "\n".join(lines[:at] + [lines[rng.randrange(len(lines))]] + lines[at + rng.randrange(2):]) + "\n"
    at = rng.randrange(len(text))
    if kind == 8:
        return text[:at]
    return text[:at] + rng.choice(['"', "[", "}", "\n", "=", "#", ",", "\x00", "é", "-", "7", "a"]) + text[at + rng.randrange(2):]


def whole(number):
    """A printed number as a whole one: millionths where it has a point."""
    return int(number.replace(".", ""))


class Report:
    """The rows of a report, in order, each a tuple of a row's fields with its ends and its tolerance as whole numbers."""

    def __init__(self, command, text):
        lines = text.split("\n")
        head = lines[1].split(" ")
        assert lines[0].split(" ")[:2] == ["report", command], f"another first line: {lines[0]}"
        assert head[0] == "degree" and 8 <= int(head[1]) <= 24 and head[2] == "scale", f"another second line: {lines[1]}"
        end = lines.index(next(line for line in lines if line.startswith("end ")))
        self.rows, self.head, self.lines, self.rest = [], lines[:3], lines[2:end], lines[end + 1:]
        assert lines[end] == f"end {end - 2}", f"another count: {lines[end]}"
        for line in self.lines:
            month, state, what, low, high, tolerance = line.split(" ")
            row = int(month), state, what, whole(low), whole(high), whole(tolerance)
            assert row[3] <= row[4], f"ends turned round: {line}"
            assert what == "premium" or row[4] - row[3] <= row[5], f"wider than its tolerance: {line}"
            self.rows.append(row)


def sign(low, high):
    return "+" if low > 0 else "-" if high < 0 else "0" if low == high == 0 else "?"


def check_columns(report, states):
    """The columns after the rows, where the program has them, say what the rows say."""
    if report.rest == [""]:
        return
    wanted = []
    for kind in "123":
        wanted.append(f"column {kind}")
        for (month, state, what, low, high, _), line in zip(report.rows, report.lines):
            place, (text_low, text_high) = states.index(state), line.split(" ")[3:5]
            if kind == "1":
                width = str(high - low) if "." not in text_low else f"{(high - low) // MILLION}.{(high - low) % MILLION:06}"
                wanted.append(f"{month} {place} {width}")
            elif kind == "2":
                wanted.append(f"{month} {place} {sign(low, high)}")
            else:
                wanted.append(f"{month},{place},{what},{text_low},{text_high}")
    assert report.rest == wanted + [""], "the columns say something else than the rows"


def dates(months, every):
    return list(range(0, months + 1, every))


def check_product(file, product, limits, ask):
    """All commands on a file that breaks no rule; `ask` runs one."""
    told = {tuple(line.split(" ")[:-1]): line.split(" ")[-1] for line in limits.split("\n") if " " in line}
    months, states = product["months"], product["states"]
    value = Report("value", ask(["value"]))
    (row,) = value.rows
    assert row[:3] == (0, product["start"], "value"), "another row of value"
    assert value.lines[0].endswith(" " + told["tolerance", "value"]), "another tolerance of value"
    reserves = Report("reserves", ask(["reserves", "7"]))
    assert [row[:3] for row in reserves.rows] == [(m, s, "reserve") for m in dates(months, 7) for s in states], \
        "other rows of reserves"
    at_issue = next(each for each in reserves.rows if each[1] == product["start"])
    lump = MILLION * sum(each["amount"] for each in product.get("lump", [])
                         if each["month"] == 0 and each["state"] == product["start"])
    assert (at_issue[3] + lump, at_issue[4] + lump) == row[3:5], "value and reserve at issue differ by more than the lump"
    occupancy = Report("occupancy", ask(["occupancy", "5"]))
    assert [row[:3] for row in occupancy.rows] == [(m, s, "occupancy") for m in dates(months, 5) for s in states], \
        "other rows of occupancy"
    for month in dates(months, 5):
        here = [row for row in occupancy.rows if row[0] == month]
        assert sum(row[3] for row in here) <= MILLION <= sum(row[4] for row in here), f"no sum of 1 at {month}"
        assert month or all(row[3] == row[4] == MILLION * (row[1] == product["start"]) for row in here), "not sure at issue"
    check_moments(months, states, reserves, told, ask)
    check_premium(row, ask)
    check_no_change(months, states, reserves, ask)
    check_upgraded(limits, value, ask)
    check_audit(reserves, ask)
    check_portfolio(file, reserves)
    check_forms(reserves, occupancy, ask)
    check_changed(file, row, ask)
    for report in (value, reserves, occupancy):
        check_columns(report, states)


def check_moments(months, states, reserves, told, ask):
    text = ask(["moments", "7"])
    moments = Report("moments", text)
    kinds = ["first", "second", "variance"]
    assert [row[:3] for row in moments.rows] == [(m, s, w) for m in dates(months, 7) for s in states for w in kinds], \
        "other rows of moments"
    check_columns(moments, states)
    # both hold the exact number; a cell of both moments may go to a higher degree, which shows in the last digits
    for first, reserve in zip((row for row in moments.rows if row[2] == "first"), reserves.rows):
        assert first[3] <= reserve[4] and reserve[3] <= first[4], "a first moment is not the reserve"
        assert first[5] == reserve[5], "another tolerance of a first moment"
    for first, second, variance in zip(*(moments.rows[place::3] for place in range(3))):
        ends = sorted(Fraction(end, MILLION) ** 2 for end in first[3:5])
        least = Fraction(0) if first[3] <= 0 <= first[4] else ends[0]
        assert second[4] >= least, "a second moment below the square of the first"
        assert variance[4] >= 0, "a variance below 0"
        assert second[3] - ends[1] <= variance[4] and variance[3] <= second[4] - least, "a variance of other moments"


def check_premium(value, ask):
    text = ask(["premium"])
    if text.startswith("refused premium low "):
        assert Fraction(text.split(" ")[3]) < Fraction(1, 32), "refused, and not too small"
        return
    benefits, pattern, premium = Report("premium", text).rows
    assert [row[2] for row in (benefits, pattern, premium)] == ["benefits", "pattern", "premium"], "other rows of premium"
    assert benefits[3:5] == value[3:5], "the value of the benefits is not the value"
    assert (pattern[3] + 1) * 32 > MILLION, "a premium, and the pattern is too small"
    ends = [Fraction(b, p) for b in benefits[3:5] for p in pattern[3:5] if p]
    assert premium[3] <= MILLION * max(ends) and MILLION * min(ends) <= premium[4], "a premium of other values"


def check_no_change(months, states, reserves, ask):
    """From a product to itself no reserve changes, and the ends are differences of the reserves' own ends."""
    lines = ask(["compare", "FILE", "7"]).split("\n")
    assert lines[1].startswith("degree ") and lines[-2] == f"end {len(lines) - 4}", "another head or count of changes"
    rows = [line.split(" ") for line in lines[2:-2]]
    wanted = [(str(m), s, part) for m in dates(months, 7) for s in states for part in ("interest", "rest", "total")]
    assert [tuple(row[:3]) for row in rows] == wanted, "other rows of compare"
    for place, row in enumerate(rows):
        low, high, tolerance = (whole(number) for number in row[3:6])
        reserve = reserves.rows[place // 3]
        width = reserve[4] - reserve[3]
        assert (low, high, tolerance, row[6]) == (-width, width, 2 * reserve[5], "open"), f"a change: {row}"


def check_upgraded(limits, value, ask):
    """The product as a file of format 2 is the same product, and upgraded once more it is the same text."""
    text = ask(["upgrade"])
    assert tomllib.loads(text)["format"] == 2, "another format"
    with tempfile.NamedTemporaryFile(dir=work, suffix=".toml") as upgraded:
        upgraded.write(text.encode())
        upgraded.flush()
        again = [["check"], ["value"], ["upgrade"]]
        told = [subprocess.run([program, *words, upgraded.name], capture_output=True).stdout.decode() for words in again]
    assert told[0] == limits and told[1].split("\n")[:3] == value.head, "another product"
    assert told[2] == text, "another text of the upgraded file"


def decimal(millionths):
    """A whole number of millionths as a decimal."""
    return f"{'-' * (millionths < 0)}{abs(millionths) // MILLION}.{abs(millionths) % MILLION:06}"


def table_file(records):
    """A CSV file with these records."""
    made = tempfile.NamedTemporaryFile("w", dir=work, suffix=".csv", newline="")
    csv.writer(made).writerows(records)
    made.flush()
    return made


def check_audit(reserves, ask):
    """Claims about the first rows: at an end, too far away, and so far that only one end is near."""
    rows = [row for row in reserves.rows[:12] if max(-row[3], row[4]) < 10**20]
    eps = max((row[4] - row[3] for row in rows), default=0)
    records, wanted = [["month", "state", "reserve"]], []
    for month, state, _, low, high, _ in rows:
        for claim, mark in ((low, "yes"), (high + eps + 1, "no"), (high + eps, "undecided" if low < high else "yes")):
            records.append([month, state, decimal(claim)])
            wanted.append(f"{month} {state} {decimal(claim)} {decimal(low)} {decimal(high)} {mark}")
    marks = [line.split(" ")[-1] for line in wanted]
    wanted.append("end yes %d no %d undecided %d" % tuple(marks.count(mark) for mark in ("yes", "no", "undecided")))
    with table_file(records) as claims:
        lines = ask(["audit", claims.name, decimal(eps)]).split("\n")
    assert lines[1] == f"{' '.join(reserves.head[1].split(' ')[:2])} eps {decimal(eps)}", f"another audit: {lines[1]}"
    assert lines[2:] == wanted + [""], "other marks"


def check_portfolio(file, reserves):
    """Two contracts of the first row and three of the last one, in a group, and one of the first in another."""
    held = [("all", reserves.rows[0], 2), ("one", reserves.rows[0], 1), ("all", reserves.rows[-1], 3)]
    records = [["file", "group", "month", "state", "count"]] + [[file, name, row[0], row[1], count] for name, row, count in held]
    with table_file(records) as policies:
        ran = subprocess.run([program, "portfolio", policies.name], capture_output=True, timeout=300)
    assert ran.returncode == 0 and not ran.stderr, f"status {ran.returncode} of portfolio"
    wanted = ["portfolio", f"{' '.join(reserves.head[1].split(' ')[:2])} policies 3 groups 2"]
    for group in ("all", "one"):
        sums = [sum(count * row[place] for name, row, count in held if name == group) for place in (3, 4, 5)]
        wanted.append(" ".join([group, *map(decimal, sums)]))
    assert ran.stdout.decode().split("\n")[:5] == wanted + ["end 2"], "other totals"


def check_forms(reserves, occupancy, ask):
    """The rows of reserves as JSON, and those of occupancy as CSV."""
    head = ["month", "state", "what", "lo", "hi", "tolerance"]
    tree = json.loads(ask(["reserves", "7"], "json"))
    rows = [" ".join(str(row[key]) for key in head) for row in tree["rows"]]
    assert rows == reserves.lines, "other rows as JSON"
    read = list(csv.reader(io.StringIO(ask(["occupancy", "5"], "csv"))))
    assert read[0] == head and [" ".join(row) for row in read[1:]] == occupancy.lines, "other rows as CSV"


def check_changed(file, value, ask):
    """With no more interest the same file, with a little more another, and charged with nothing the same value."""
    assert ask(["shift", "0"]) == ask(["upgrade"]), "another product without a shift"
    ask(["shift", "-0.000001"])
    text = ask(["charge", "0"])
    if text.startswith("refused"):
        assert text in ("refused change part 4\n", "refused change part 6\n"), f"charged with nothing: {text}"
        return
    with tempfile.NamedTemporaryFile(dir=work, suffix=".toml") as charged:
        charged.write(text.encode())
        charged.flush()
        ran = subprocess.run([program, "value", charged.name], capture_output=True, timeout=300)
    (again,) = Report("value", ran.stdout.decode()).rows
    assert again[3] <= value[4] and value[3] <= again[4] and again[5] == value[5], "another value, charged with nothing"


def check_explained(limits, ask):
    """A refusal that is explained has its line, and then at most four."""
    lines = ask(["check"], "explain").split("\n")
    keys = [line.split(": ")[0] for line in lines[1:-1]]
    assert lines[0] + "\n" == limits and lines[-1] == "" and keys and keys[0] == "rule", f"explained: {lines}"
    assert keys == [key for key in ("rule", "at", "found", "wanted") if key in keys], f"explained: {lines}"


# the words of each command without its first file; the second is the same
COMMANDS = [["value"], ["reserves", "7"], ["occupancy", "5"], ["moments", "7"], ["premium"], ["upgrade"],
            ["compare", "FILE", "7"], ["audit", "FILE", "1"], ["shift", "0"], ["charge", "1"]]


def fault(file):
    """What is wrong with the answers about a file; nothing where they are right."""

    def ask(words, *form):
        named = [file if word == "FILE" else word for word in words]
        ran = subprocess.run([program, *form, named[0], file, *named[1:]], capture_output=True, timeout=300)
        text = ran.stdout.decode()
        assert not ran.stderr, f"errors told: {ran.stderr[:200]}"
        if ran.returncode:
            own = REFUSALS.get(ran.returncode)
            lines = 5 if form == ("explain",) else 1
            assert own and text.startswith(own) and text.count("\n") <= lines, f"status {ran.returncode}: {text[:200]}"
            assert ran.returncode != 7 or words[0] == "premium", f"status 7 of {words[0]}"
            assert ran.returncode != 14 or words[0] == "audit", f"status 14 of {words[0]}"
            assert ran.returncode not in (13, 17) or words[0] in ("shift", "charge"), f"status {ran.returncode} of {words[0]}"
        else:
            assert text.endswith("\n"), "no line end at the end"
        return text

    try:
        limits = ask(["check"])
        if limits.startswith("check "):
            try:
                product = tomllib.loads(pathlib.Path(file).read_text(encoding="utf-8"))
            except tomllib.TOMLDecodeError:
                # TOML 1.1, which the program reads, and Python does not
                for words in COMMANDS:
                    ask(words)
            else:
                check_product(file, product, limits, ask)
        else:
            for words in COMMANDS:
                assert ask(words) == limits, f"another refusal by {words[0]} than {limits}"
            check_explained(limits, ask)
        return None, limits.split(" ")[0:3]
    except (AssertionError, StopIteration, IndexError, ValueError, subprocess.TimeoutExpired) as error:
        return f"{type(error).__name__}: {error}", []


def tried(number):
    rng = random.Random(f"{seed} {number}")
    file = os.path.join(work, f"{number}.toml")
    pathlib.Path(file).write_bytes(damaged(rng, Product(rng).lines()).encode())
    wrong, verdict = fault(file)
    if wrong is None:
        os.remove(file)
    return wrong, file, verdict


work = tempfile.mkdtemp(prefix="random_files_")
passed = failed = 0
verdicts = {}
with concurrent.futures.ThreadPoolExecutor(os.cpu_count()) as pool:
    for wrong, file, verdict in pool.map(tried, range(count)):
        passed, failed = passed + (wrong is None), failed + (wrong is not None)
        if wrong:
            print(f"FAILED {file}: {wrong}")
        else:
            kind = "accepted" if verdict[0] == "check" else " ".join(verdict).strip()
            verdicts[kind] = verdicts.get(kind, 0) + 1
if not failed:
    os.rmdir(work)
print(", ".join(f"{number} {kind}" for kind, number in sorted(verdicts.items())))
print(f"{passed} passed, {failed} failed")
raise SystemExit(failed > 0)
PYTHON
