#!/usr/bin/env bash
# Counts what no proof sees of the sources: lines over 120 columns, imports that the file does not use, definitions of specs/
# without a comment line above them, and lemma statements that stand in two crates, whatever their variables are called
# (the type of a definition is no statement). Each count has its limit below, 0 or a number that only falls. The last line counts what passed and what failed.
set -u
cd "$(dirname "$0")/.." || exit 2
exec python3 - <<'PYTHON'
import collections, pathlib, re

LIMITS = {"lines over 120 columns": 0, "unused imports": 0, "definitions without a line": 0, "statements in two crates": 0}

found = {name: [] for name in LIMITS}
statements = collections.defaultdict(set)
HEAD = re.compile(r"(?:abbrev |unfoldable )?(?:pub )?(?:(?:record|data) ([^\s:]+)|([^\s(){}:]+) :)")


def is_used(name, text):
    """Whether the text has the name: of an operator, each of its parts; of what is renamed, the new name."""
    name = name.split(" as ")[-1].strip(" ;")
    if "◌" in name:
        return all(part in text for part in name.split("◌") if part)
    return re.search(r"(?<![\w'-])" + re.escape(name) + r"(?![\w'-])", text) is not None


def plain(statement):
    """The statement with its variables numbered in the order in which they are bound."""
    bound = re.findall(r"[({]([^(){}:]+) :|λ ([^.]+)\.", statement)
    names = list(dict.fromkeys(" ".join(a + b for a, b in bound).split()))
    words = re.findall(r"[^\s(){}\[\],;.→λ×⊎]+|[(){}\[\],;.→λ×⊎]", statement)
    return " ".join(f"#{names.index(word)}" if word in names else word for word in words)


for path in sorted(pathlib.Path("crates").glob("*/s*/**/*.*")) + sorted(pathlib.Path("crates").glob("*/proofs/**/*.antt")):
    if path.suffix not in (".rt", ".antt"):
        continue
    crate, folder = path.parts[1], path.parts[2]
    text = path.read_text(encoding="utf-8")
    lines = text.split("\n")
    found["lines over 120 columns"] += [f"{path}:{n}" for n, line in enumerate(lines, 1) if len(line) > 120]
    imports = [line for line in lines if re.match(r"(pub )?use |ghost use ", line)]
    comment = r"//.*" if path.suffix == ".rt" else r"--.*"
    rest = "\n".join(re.sub(comment, "", line) for line in lines if line not in imports)
    for line in imports:
        if line.startswith("pub ") or path.suffix == ".rt" and not line.startswith("ghost "):
            continue
        listed = re.search(r"\{(.*)\}", line)
        names = listed.group(1).split(", ") if listed else [line.split(".")[-1]]
        found["unused imports"] += [f"{path}: {name}" for name in names if not is_used(name, rest)]
    if path.suffix != ".antt" or path.name == "Lib.antt":
        continue
    for n, line in enumerate(lines):
        head = HEAD.match(line)
        if not head:
            continue
        name = head.group(1) or head.group(2)
        if folder == "specs" and not lines[n - 1].startswith("--"):
            found["definitions without a line"].append(f"{path}:{n + 1} {name}")
        if folder == "proofs" and "goal" not in line and not line.startswith("abbrev "):
            end = next((k for k in range(n + 1, len(lines)) if not lines[k].startswith(" ")), len(lines))
            statement = plain(" ".join(part.strip() for part in lines[n:end]).split(name, 1)[1])
            if len(statement) > 20:
                statements[statement].add((crate, f"{path}:{n + 1} {name}"))

for places in statements.values():
    if len({crate for crate, _ in places}) > 1:
        found["statements in two crates"].append(", ".join(sorted(place for _, place in places)))

failed = 0
for name, places in found.items():
    if len(places) > LIMITS[name]:
        failed += 1
        print(f"FAILED {name}: {len(places)}, and at most {LIMITS[name]}", *places[:400], sep="\n  ")
    else:
        print(f"{name}: {len(places)}, at most {LIMITS[name]}")
print(f"{len(found) - failed} passed, {failed} failed")
raise SystemExit(failed > 0)
PYTHON
