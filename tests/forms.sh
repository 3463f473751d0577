#!/usr/bin/env bash
# Runs the built program in its other forms: CSV and JSON are read back by other programs and hold the rows of the report,
# refusals are explained, and changed product files are those that are worked out here, in exact fractions. SQLite and jq
# are asked too where they are installed. The last line counts what passed and what failed.
set -u
cd "$(dirname "$0")/.." || exit 2
program=$PWD/crates/thiele_cli/out/thiele_cli
if [ ! -x "$program" ]; then
  echo "the program is not built: $program"
  echo "forms: 0 passed, 1 failed"
  exit 1
fi
exec python3 - "$program" <<'PYTHON'
import csv, hashlib, io, json, math, pathlib, shutil, subprocess, sys, tempfile, tomllib
from fractions import Fraction

program, work = sys.argv[1], pathlib.Path(tempfile.mkdtemp())
DISABILITY, NEW_BASIS = "examples/disability.toml", "examples/disability-new-basis.toml"
STATES = ["month", "state", "what", "lo", "hi", "tolerance"]
CHANGES = ["month", "state", "part", "lo", "hi", "tolerance", "turn"]
CLAIMS = ["month", "state", "claim", "lo", "hi", "mark"]
TOTALS = ["group", "lo", "hi", "tolerance"]
passed = failed = 0


def told(name, fault):
    """Counts a test, which has failed where there is a fault."""
    global passed, failed
    passed, failed = passed + (not fault), failed + bool(fault)
    if fault:
        print(f"FAILED {name}: {fault}")


def run(*words):
    """What the program writes, and its status."""
    ran = subprocess.run([program, *words], capture_output=True, text=True)
    return ran.stdout, ran.returncode


def written(name, *words):
    """A file of what the program writes."""
    (work / name).write_text(run(*words)[0], encoding="utf-8")
    return str(work / name)


def rows_of(text):
    """The rows of a report, as lists of their words."""
    lines = text.split("\n")
    return [line.split(" ") for line in lines[2 : next(n for n, line in enumerate(lines) if line.startswith("end "))]]


def csv_fault(words, head, rows):
    text, status = run("csv", *words)
    read = list(csv.reader(io.StringIO(text)))
    if status != 0 or read != [head, *rows] or not text.endswith("\n") or "\r" in text:
        return f"status {status}: {text[:300]}"
    if shutil.which("sqlite3"):
        (work / "rows.csv").write_text(text, encoding="utf-8")
        ask = "select count(*), sum(cast(replace(lo, '.', '') as integer)) from t"
        ran = subprocess.run(["sqlite3", ":memory:", f".import --csv {work}/rows.csv t", ask], capture_output=True, text=True)
        lows = sum(int(row[head.index("lo")].replace(".", "")) for row in rows)
        if ran.stdout != f"{len(rows)}|{lows}\n":
            return f"SQLite reads {ran.stdout}{ran.stderr}"
    return None


def file_of(name):
    held = pathlib.Path(name).read_bytes()
    return {"bytes": len(held), "name": name, "sha256": hashlib.sha256(held).hexdigest()}


def json_fault(words, head, rows, numbers, files):
    text, status = run("json", *words)
    fields = [{key: int(field) if key == "month" else field for key, field in zip(head, row)} for row in rows]
    wanted = {"command": list(words), "files": [file_of(name) for name in files], "rows": fields, "tool": "thiele_cli 1.0"}
    wanted |= numbers
    if status != 0 or json.loads(text) != wanted:
        return f"status {status}: {text[:300]}"
    if text != json.dumps(wanted, separators=(",", ":"), sort_keys=True) + "\n":
        return "another order of keys, or other spaces"
    if shutil.which("jq"):
        ran = subprocess.run(["jq", "-S", "-c", "."], input=text, capture_output=True, text=True)
        if ran.stdout != text:
            return f"jq reads {ran.stdout[:300]}"
    return None


def numbers_of(text, words):
    """The degree and the scale that the second line of a report tells."""
    line = text.split("\n")[1].split(" ")
    return {key: int(line[line.index(key) + 1]) for key in ("degree", "scale") if key in line}


# ---- rows
policies = [DISABILITY if name.endswith("disability.toml") else name
            for name in dict.fromkeys(row["file"] for row in csv.DictReader(open("examples/policies.csv", newline="")))]
shards = pathlib.Path(written("shard.csv", "csv", "portfolio", "examples/policies.csv"))
(work / "shards.csv").write_text(shards.read_text() * 2, encoding="utf-8")
COMMANDS = [(["value", DISABILITY], STATES, [DISABILITY]), (["reserves", DISABILITY, "60"], STATES, [DISABILITY]),
            (["occupancy", DISABILITY, "60"], STATES, [DISABILITY]), (["moments", DISABILITY, "60"], STATES, [DISABILITY]),
            (["premium", DISABILITY], STATES, [DISABILITY]),
            (["compare", DISABILITY, NEW_BASIS, "120"], CHANGES, [DISABILITY, NEW_BASIS]),
            (["audit", DISABILITY, "examples/claims.csv", "0.01"], CLAIMS, [DISABILITY, "examples/claims.csv"]),
            (["portfolio", "examples/policies.csv"], TOTALS, ["examples/policies.csv", *policies]),
            (["merge", str(work / "shards.csv")], TOTALS, [str(work / "shards.csv")])]
for words, head, files in COMMANDS:
    text, status = run(*words)
    rows = rows_of(text)
    told("csv " + words[0], csv_fault(words, head, rows))
    told("json " + words[0], json_fault(words, head, rows, numbers_of(text, words), files))
    told("explain " + words[0], run("explain", *words) != (text, status) and "another text than without")

# the sums of two equal shards are twice the totals, by group in their order
doubled = [[row[0], *(2 * Fraction(end) for end in row[1:])] for row in rows_of(run("portfolio", "examples/policies.csv")[0])]
merged = [[row[0], *map(Fraction, row[1:])] for row in rows_of(run("merge", str(work / "shards.csv"))[0])]
told("merge", merged != doubled and f"{merged} and not {doubled}")

# ---- refusals
FIRST_LINES = {"words": 2, "length": 4, "toml": 5, "rule": 6}
for line in pathlib.Path("tests/files/verdicts.txt").read_text(encoding="utf-8").split("\n"):
    name, _, verdict = line.partition(" ")
    if verdict.startswith("refused"):
        text, status = run("explain", "check", f"tests/files/{name}")
        lines = text.split("\n")
        right = lines[0] == verdict and status == FIRST_LINES[verdict.split(" ")[1]] and lines[1].startswith("rule: ")
        keys = [line.split(":")[0] for line in lines[1:-1]]
        right = right and keys == [key for key in ("rule", "at", "found", "wanted") if key in keys] and lines[-1] == ""
        told("explain " + name, not right and text)


# tables with one wrong row, and the lines that explain it
ROWS = [(["audit", DISABILITY], "month,state,reserve\n0,active,12.x\n", ["0.01"], 1, 4,
         "reserve is 1 to 18 digits, no needless zero, perhaps a point and 1 to 6 digits, perhaps - before them",
         ", reserve", "12.x"),
        (["audit", DISABILITY], "month,state,reserve\n0,active,1\n12,active,13801296,86\n", ["0.01"], 2, 1,
         "a claim has three fields", "", "4 fields"),
        (["audit", DISABILITY], "month,state,reserve\n0,,1\n", ["0.01"], 1, 3,
         "state is the name of a state of the product", ", state", "an empty field"),
        (["audit", DISABILITY], "month,state,reserve\n0,caf\u00e9,1\n", ["0.01"], 1, 3,
         "state is the name of a state of the product", ", state", None),
        (["audit", DISABILITY], "state,month,reserve\nactive,0,1\n", ["0.01"], 0, 0,
         "the first record is month,state,reserve", "", None),
        (["portfolio"], f"file,group,month,state,count\n{DISABILITY},A b,0,active,1\n", [], 1, 3,
         "group is 1 to 24 letters, digits, '.', '_' and '-'", ", group", "A b"),
        (["portfolio"], f"file,group,month,state,count\n{DISABILITY},A,0,retired,1\n", [], 1, 7,
         "state is the name of a state of the product", ", state", "retired"),
        (["merge"], "group,lo,hi,tolerance\nA,1,2,1\nA,1,2,-1\n", [], 2, 5,
         "tolerance is such a number without a sign, and at least hi less lo", ", tolerance", "-1"),
        (["merge"], "group,lo,hi,tolerance\nA,0,5,4.999999\n", [], 1, 5,
         "tolerance is such a number without a sign, and at least hi less lo", ", tolerance", "4.999999")]
for before, table, behind, row, part, rule, field, found in ROWS:
    (work / "table.csv").write_text(table, encoding="utf-8")
    wanted = f"refused row {row} part {part}\nrule: {rule}\nat: record {row}{field}\n" + (f"found: {found}\n" if found else "")
    answer = run("explain", *before, str(work / "table.csv"), *behind)
    told(f"explain row of {before[0]}", answer != (wanted, 14) and f"{answer}")


# ---- changed files
def places_of(word):
    """A decimal as a whole number and how many digits stand behind its point."""
    digits = len(word.partition(".")[2])
    return int(Fraction(word) * 10**digits), digits


def finer(tree, places):
    """A product over a finer denominator, in place."""
    tree["den"] *= 10**places
    for piece in [*tree["interest"], *(piece for move in tree.get("transition", []) for piece in move["rate"])]:
        piece["c"] = [c * 10**places for c in piece["c"]]


def shifted(tree, rate):
    units, places = places_of(rate)
    more = units * tree["den"]
    finer(tree, places)
    for piece in tree["interest"]:
        piece["c"][0] += more


def multiplied(tree, first, last, factor):
    units, places = places_of(factor)
    chosen = next(move for move in tree["transition"] if (move["from"], move["to"]) == (first, last))
    old = [piece["c"] for piece in chosen["rate"]]
    finer(tree, places)
    for piece, coefficients in zip(chosen["rate"], old):
        piece["c"] = [c * units for c in coefficients]


def later(steps, month):
    """The steps from a month on: that of the month starts anew there."""
    held = [step for step in steps if step["from"] <= month][-1]
    c, t = held["c"], Fraction(month - held["from"], 12)
    again = [sum(math.comb(j, i) * c[j] * t ** (j - i) for j in range(i, 4)) for i in range(4)]
    return [{"from": month, "c": again}, *(step for step in steps if step["from"] > month)]


def charged_all_the_time(tree, amount):
    """A product with a continuous premium."""
    pattern, sojourns = tree["premium"], tree.setdefault("sojourn", [])
    nothing = [{"from": 0, "c": [0, 0, 0, 0]}]
    for payer in pattern["payers"]:
        if payer not in [sojourn["state"] for sojourn in sojourns]:
            sojourns.append({"state": payer, "steps": nothing})
    for sojourn in sojourns:
        if sojourn["state"] in pattern["payers"]:
            before = [step for step in sojourn["steps"] if step["from"] < pattern["until"]]
            behind = later(sojourn["steps"], pattern["until"]) if pattern["until"] < tree["months"] else []
            sojourn["steps"] = [{"from": step["from"], "c": [step["c"][0] - int(amount), *step["c"][1:]]}
                               for step in before] + behind


def charged(tree, amount):
    """A product with a premium at dates."""
    pattern = tree["premium"]
    lumps = {(lump["month"], lump["state"]): lump["amount"] for lump in tree.get("lump", [])}
    for month in range(0, pattern["until"], pattern["every"]):
        for state in pattern["payers"]:
            lumps[month, state] = lumps.get((month, state), 0) - int(amount)
    tree["lump"] = [{"month": month, "state": state, "amount": amount} for (month, state), amount in lumps.items()]


def tree_of(text):
    """The tree of a product file, its lumps in order."""
    tree = tomllib.loads(text)
    tree["lump"] = sorted(tree.get("lump", []), key=lambda lump: (lump["month"], lump["state"]))
    return in_four(tree)


def in_four(tree):
    """The tree with four coefficients for each step of a sojourn, in place."""
    for step in [step for sojourn in tree.get("sojourn", []) for step in sojourn["steps"]]:
        step["c"] = [*step["c"], 0, 0, 0][:4]
    return tree


def change_fault(change, words):
    text, status = run(*words)
    wanted = tree_of(run("upgrade", words[1])[0])
    change(wanted, *words[2:])
    wanted["lump"].sort(key=lambda lump: (lump["month"], lump["state"]))
    return (status != 0 or tree_of(text) != wanted) and f"status {status}: {text[:300]}"


# a premium in two states up to month 30 of 48: one is paid by a varying rate, which goes on from there, and one by none
RISING = """format = 2
name = "rising"
months = 48
den = 100
start = "well"
states = ["well", "ill", "dead"]
interest = [{ from = 0, c = [3] }]
transition = [{ from = "well", to = "ill", rate = [{ from = 0, c = [20, 1] }] }]
sojourn = [
  { state = "dead", steps = [{ from = 0, c = [5] }] },
  { state = "ill", steps = [{ from = 0, c = [1200] }, { from = 6, c = [7, 120, -30, 4] }, { from = 42, c = [9, 1] }] },
]
premium = { payers = ["well", "ill"], until = 30, every = 0 }
"""
(work / "rising.toml").write_text(RISING, encoding="utf-8")
(work / "uneven.toml").write_text(RISING.replace("until = 30", "until = 31"), encoding="utf-8")
rising, uneven = str(work / "rising.toml"), str(work / "uneven.toml")

for change, words in [(shifted, ["shift", DISABILITY, "-0.010"]), (shifted, ["shift", DISABILITY, "0"]),
                      (multiplied, ["multiply", DISABILITY, "active", "disabled", "1.10"]),
                      (charged, ["charge", "tests/values/yearly-premium.toml", "640"]),
                      (charged_all_the_time, ["charge", "tests/values/death-benefit.toml", "2000"]),
                      (charged_all_the_time, ["charge", rising, "-35"])]:
    told(" ".join(words), change_fault(change, words))
REFUSED = [(["shift", "tests/files/cut-after-den.toml", "0.01"], "refused rule 1 place 4\n", 6),
           (["shift", written("finest.toml", "shift", DISABILITY, "0.000000"), "0.0"], "refused change part 1\n", 17),
           (["shift", DISABILITY, "-0.1"], "refused derived rule 15 place 0\n", 13),
           (["multiply", DISABILITY, "active", "retired", "1.10"], "refused change part 3\n", 17),
           (["charge", "examples/flat.toml", "1"], "refused change part 4\n", 17),
           (["charge", "tests/values/yearly-premium.toml", "2000000000000"], "refused change part 5\n", 17),
           (["charge", rising, "2000000000000"], "refused change part 5\n", 17),
           (["charge", uneven, "1"], "refused change part 6\n", 17)]
for words, line, status in REFUSED:
    found = run(*words)
    told(" ".join(words), found != (line, status) and f"{found}")

# ---- values of changed products, from a computation outside in 30 digits, cut after the last one
SMALL = "tests/files/disability.toml"
due = written("charged.toml", "charge", SMALL, "409")
base = written("base.toml", "shift", due, "0.00")
lower = written("lower.toml", "shift", due, "-0.01")
higher = written("higher.toml", "multiply", due, "active", "disabled", "1.10")


def holds(name, words, row, digits):
    """Counts whether the ends of a row hold a value of which these digits are told."""
    found = {tuple(row[:3]): row[3:5] for row in rows_of(run(*words)[0])}.get(row, ["1", "0"])
    ends = sorted((Fraction(digits), Fraction(digits) + Fraction("-0.000001" if digits[0] == "-" else "0.000001")))
    told(name, not (Fraction(found[0]) <= ends[1] and ends[0] <= Fraction(found[1])) and f"{row}: {found}")


holds("the premium", ["premium", SMALL], ("0", "active", "premium"), "408.815654")
holds("a value charged", ["value", due], ("0", "active", "value"), "-18.355650")
# a rate of dying of 2 % and a sum of 100000: what is paid for all the time is worth nothing
paid = written("paid.toml", "charge", "tests/values/death-benefit.toml", "2000")
holds("a continuous premium charged", ["value", paid], ("0", "active", "value"), "0.000000")
holds("more disabled at issue", ["compare", base, higher, "60"], ("0", "active", "total"), "265.949738")
holds("more disabled after five years", ["compare", base, higher, "60"], ("60", "active", "total"), "-6.632840")
holds("less interest", ["compare", base, lower, "60"], ("0", "active", "total"), "2073.800760")

# ---- the program itself
told("help", "explain COMMAND" not in run("help")[0] and run("help"))
kit = subprocess.run(["rt", "version"], capture_output=True, text=True).stdout.split(" ")[0]
told("version", run("version") != (f"thiele_cli 1.0 {kit}\n", 0) and run("version"))
told("words", run("csv", "check", DISABILITY) != ("refused words\n", 2) and "csv check has a reading")

print(f"forms: {passed} passed, {failed} failed")
raise SystemExit(failed > 0)
PYTHON
