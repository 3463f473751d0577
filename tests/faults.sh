#!/usr/bin/env bash
# Runs every command of the built program on a small and on a large product and refuses its calls to the system one at a time:
# each allocation, each read, each piece of the output. A refused allocation ends with status 9 and an empty output, a refused
# read with status 3, a refused piece with status 8 and the pieces before it. `tests/faults.sh [MOST]` tries at most so many
# calls of each kind, evenly spread; without MOST all of them. The last line counts what passed and what failed.
set -u
cd "$(dirname "$0")/.." || exit 2
program=$PWD/crates/thiele_cli/out/thiele_cli
work=$(mktemp -d) || exit 2
trap 'rm -rf "$work"' EXIT
if [ ! -x "$program" ] || ! "${CC:-gcc}" -shared -fPIC -O1 -Wall -o "$work/faults.so" tests/faults.c -ldl; then
  echo "the program is not built, or no C compiler builds tests/faults.c: $program"
  echo "0 passed, 1 failed"
  exit 1
fi
python3 - "$program" "$work" "${1:-0}" <<'PYTHON'
import concurrent.futures, os, pathlib, subprocess, sys

program, work, most = sys.argv[1], pathlib.Path(sys.argv[2]), int(sys.argv[3])
KINDS = ("FAIL_ALLOC", "FAIL_READ", "FAIL_WRITE")
SMALL, LARGE = "examples/flat.toml", "examples/disability.toml"
COMMANDS = [[word, file, *more] for file in (SMALL, LARGE)
            for word, *more in (["check"], ["value"], ["premium"], ["reserves", "60"], ["occupancy", "60"], ["moments", "60"])]
COMMANDS += [["upgrade", LARGE], ["join", "examples/annuity-20-years.toml", "examples/annuity.toml"],
             ["compare", LARGE, "examples/disability-new-basis.toml", "120"], ["generate", "7"], ["load", "7"],
             ["audit", LARGE, "examples/claims.csv", "0.01"], ["portfolio", "examples/policies.csv"], ["no", "such", "words"],
             ["shift", LARGE, "0.01"], ["multiply", LARGE, "active", "disabled", "1.1"], ["charge", LARGE, "1"], ["help"],
             ["merge", "examples/totals.csv"], ["csv", "merge", "examples/totals.csv"], ["version"],
             *(["csv", *rows] for rows in (["reserves", LARGE, "60"], ["portfolio", "examples/policies.csv"])),
             *(["json", *rows] for rows in (["moments", LARGE, "60"], ["audit", LARGE, "examples/claims.csv", "0.01"])),
             *(["explain", *refused] for refused in (["check", "tests/files/negative-intensity.toml"],
                                                     ["value", "tests/files/two-signs.toml"], ["charge", SMALL, "1"]))]


def run(words, **given):
    """What the program writes and its status, with one call refused where `given` says so."""
    env = os.environ | {"LD_PRELOAD": str(work / "faults.so")} | {name: str(value) for name, value in given.items()}
    ended = subprocess.run([program, *words], env=env, capture_output=True)
    return ended.stdout, ended.returncode


def is_as_told(kind, whole, found):
    """Whether a run with a refused call ends as the table of ends says; `whole` is the run without."""
    output, status = found
    if kind == "FAIL_ALLOC":
        return output == b"" and status == 9
    if kind == "FAIL_READ":
        return status == 3 and output != whole[0]
    return status == 8 and output != whole[0] and whole[0].startswith(output)


def tried(count):
    """The numbers of the calls that are refused in turn."""
    if most == 0 or count <= most:
        return range(1, count + 1)
    return sorted({1 + place * (count - 1) // (most - 1) for place in range(most)})


passed = failed = 0
with concurrent.futures.ThreadPoolExecutor(os.cpu_count()) as pool:
    for words in COMMANDS:
        counts = work / "counts"
        whole = run(words, COUNTS=counts)
        calls = list(map(int, counts.read_text().split()))
        for kind, count in zip(KINDS, calls):
            numbers = tried(count)
            for number, found in zip(numbers, pool.map(lambda n: run(words, **{kind: n}), numbers)):
                if is_as_told(kind, whole, found):
                    passed += 1
                else:
                    failed += 1
                    print(f"FAILED {' '.join(words)}, {kind} {number}: status {found[1]}, output {found[0][:80]}")
        print(f"{' '.join(words)}: {calls[0]} allocations, {calls[1]} reads, {calls[2]} pieces")
print(f"{passed} passed, {failed} failed")
raise SystemExit(failed > 0)
PYTHON
