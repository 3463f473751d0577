#!/usr/bin/env bash
# Runs the built program over worked products, and looks whether its intervals hold the values of tests/values/*.txt: from
# closed forms, and from power series in 60 digits, month by month, outside the program. A value there is cut after its
# last digit. The last line counts what passed and what failed.
set -u
cd "$(dirname "$0")/.." || exit 2
program=$PWD/crates/thiele_cli/out/thiele_cli
if [ ! -x "$program" ]; then
  echo "the program is not built: $program"
  echo "0 passed, 1 failed"
  exit 1
fi
exec python3 - "$program" <<'PYTHON'
import pathlib, subprocess, sys, tempfile, tomllib
from fractions import Fraction

program, folder = sys.argv[1], pathlib.Path("tests/values")


# which ends prove the sign of a change
TURNS = {"above": lambda low, high: low > 0, "below": lambda low, high: high < 0,
         "open": lambda low, high: low <= 0 <= high}


def rows_of(lines):
    """The rows of a report or of changes, by month, state and what they are about."""
    rows = {}
    for line in lines[2:]:
        if line.startswith("end "):
            break
        month, state, what, *ends = line.split(" ")
        rows[month, state, what] = ends
    return rows


def columns_of(words, rows):
    """The lines of the columns that these rows have: their widths, their signs, and their fields."""
    states = tomllib.loads((folder / words[1]).read_text(encoding="utf-8"))["states"]
    widths, signs, fields = [], [], []
    for (month, state, what), (low, high, _) in rows.items():
        place, least, most = states.index(state), Fraction(low), Fraction(high)
        digits = 0 if what in ("second", "variance") else 6
        width = str(int((most - least) * 10**digits)).rjust(digits + 1, "0")
        widths.append(f"{month} {place} " + (f"{width[:-digits]}.{width[-digits:]}" if digits else width))
        sign = "+" if least > 0 else "-" if most < 0 else "0" if least == most == 0 else "?"
        signs.append(f"{month} {place} {sign}")
        fields.append(f"{month},{place},{what},{low},{high}")
    return ["column 1", *widths, "column 2", *signs, "column 3", *fields, ""]


def other_reserves(words, rows):
    """Whether the first moments and the reserves of the same dates can't both hold one number, or have other tolerances."""
    ran = subprocess.run([program, "reserves", *words[1:]], cwd=folder, capture_output=True, text=True)
    reserves = {(month, state, "first"): ends for (month, state, what), ends in rows_of(ran.stdout.split("\n")).items()}
    first = {row: ends for row, ends in rows.items() if row[2] == "first"}
    both = first.keys() == reserves.keys() and all(
        Fraction(ends[0]) <= Fraction(reserves[row][1]) and Fraction(reserves[row][0]) <= Fraction(ends[1])
        and ends[2] == reserves[row][2] for row, ends in first.items())
    return [] if both else ["other first moments than the reserves"]


def faults(words, wanted):
    """What is wrong with the report that these words get."""
    ran = subprocess.run([program, *words], cwd=folder, capture_output=True, text=True)
    lines = ran.stdout.split("\n")
    refused = [line[1:] for line in wanted if line[0] == "refused"]
    if refused:
        right = ran.returncode == int(refused[0][0]) and ran.stdout.split() == ["refused", *refused[0][1:]]
        return [] if right else [f"status {ran.returncode}: {ran.stdout}"]
    if ran.returncode != 0 or ran.stderr:
        return [f"status {ran.returncode}: {ran.stdout}{ran.stderr}"]
    told, rows = [], rows_of(lines)
    for (month, state, what), (low, high, tolerance, *turn) in rows.items():
        line = f"{month} {state} {what} {low} {high} {tolerance}"
        if words[0] == "compare" and not TURNS[turn[0]](Fraction(low), Fraction(high)):
            told.append(f"another turn: {line} {turn[0]}")
        if what != "premium" and Fraction(high) - Fraction(low) > Fraction(tolerance):
            told.append(f"wider than its tolerance: {line}")
        if Fraction(low) > Fraction(high):
            told.append(f"ends turned round: {line}")
    head = lines[1].split(" ")
    first = ["compare"] if words[0] == "compare" else ["report", words[0]]
    if lines[0].split(" ")[: len(first)] != first or not 8 <= int(head[1]) <= 24:
        told.append(f"another head: {lines[0]}, {lines[1]}")
    if f"end {len(rows)}" not in lines:
        told.append(f"another count of rows than {len(rows)}")
    if lines[2 + len(rows) + 1 :] != ([""] if words[0] == "compare" else columns_of(words, rows)):
        told.append("other columns than those of the rows")
    if words[0] == "moments":
        told += other_reserves(words, rows)
    for line in wanted:
        if line[0] == "rows":
            found = int(line[1]) == len(rows)
        elif line[0] == "scale":
            found = head[3] == line[1]
        elif line[0] == "degree":
            found = int(head[1]) <= int(line[1])
        elif line[0] == "tolerance":
            found = line[1] in {row[2] for row in rows.values()}
        elif line[3] in TURNS:
            found = rows.get(tuple(line[:3]), [""])[-1] == line[3]
        else:
            month, state, what, digits = line
            unit = Fraction(1, 10 ** len(digits.partition(".")[2]))
            low, high = (Fraction(end) for end in rows.get((month, state, what), ("1", "0"))[:2])
            size = abs(Fraction(digits))
            sign = -1 if digits.startswith("-") else 1
            ends = sorted((sign * size, sign * (size + unit)))
            found = low <= ends[1] and ends[0] <= high
        if not found:
            told.append("not so: " + " ".join(line))
    return told


passed = failed = 0
for file in sorted(folder.glob("*.txt")):
    for block in file.read_text(encoding="utf-8").split("\n\n"):
        words, *wanted = [line.split() for line in block.strip().split("\n") if not line.startswith("#")]
        told = faults(words, wanted)
        passed, failed = passed + (not told), failed + bool(told)
        if told:
            print(f"FAILED {' '.join(words)}", *told[:12], sep="\n  ")
# the product file of a seed has the tree of the one from outside, however it is spelled
ran = subprocess.run([program, "generate", "7"], capture_output=True, text=True)
outside = (folder / "generated-7.toml").read_text(encoding="utf-8")
same = ran.returncode == 0 and tomllib.loads(ran.stdout) == tomllib.loads(outside)
passed, failed = passed + same, failed + (not same)
if not same:
    print("FAILED generate 7: another tree than that of generated-7.toml")
# what is told of its reserves in three lines: 66 dates in three states, and the widest row of the report
report = subprocess.run([program, "reserves", "generated-7.toml", "12"], cwd=folder, capture_output=True, text=True).stdout
widths = [round((Fraction(high) - Fraction(low)) * 10**6) for low, high, *_ in rows_of(report.split("\n")).values()]
summed = ["load generated-7", report.split("\n")[1], f"rows 198 widest {max(widths, default=0) / 10**6:.6f}", ""]
told = subprocess.run([program, "load", "7"], capture_output=True, text=True).stdout.split("\n")
same = told == summed and len(widths) == 198
passed, failed = passed + same, failed + (not same)
if not same:
    print("FAILED load 7: wanted", *summed, "found", *told, sep="\n  ")


def value_of(text):
    """What the program says of the product file with this text: by `check` and by `value`, and the ends of its value."""
    with tempfile.TemporaryDirectory() as work:
        pathlib.Path(work, "made.toml").write_text(text, encoding="utf-8")
        told = [subprocess.run([program, command, "made.toml"], cwd=work, capture_output=True, text=True).stdout.split("\n")
                for command in ("check", "value", "upgrade")]
    low, high = list(rows_of(told[1]).values() or [["1", "0"]])[0][:2]
    return told, Fraction(low), Fraction(high)


def made_by(*words):
    """The product file that the command writes."""
    return subprocess.run([program, *words], cwd=folder, capture_output=True, text=True).stdout


# the product of an upgraded file has the same value, and its file is the same when it is upgraded again
text = made_by("upgrade", "death-benefit.toml")
told, low, high = value_of(text)
# 40000 (1 - exp(-1/2)) = 15738.773611494..
same = low <= Fraction("15738.773611494") <= high and "\n".join(told[2]) == text
passed, failed = passed + same, failed + (not same)
if not same:
    print("FAILED upgrade death-benefit.toml: another product than that of the file")
# an annuity of 1200 a year while both live, for ten years: 12000 (1 - exp(-1)) = 7585.446705942..
told, low, high = value_of(made_by("join", "active-annuity.toml", "second-life.toml"))
same = low <= Fraction("7585.446705942") <= high and told[0][1] == "states 4 months 120 transitions 4 lumps 0"
passed, failed = passed + same, failed + (not same)
if not same:
    print("FAILED join active-annuity.toml second-life.toml: another product than that of both lives")
print(f"{passed} passed, {failed} failed")
raise SystemExit(failed > 0)
PYTHON
