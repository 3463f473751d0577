#!/usr/bin/env bash
# Looks whether the man page, the completions, the table of the README and the text of `help` name exactly the commands and
# forms that the program reads: those that crates/command_words/src has as strings; and whether the man page, the README and
# `help` have the same words behind each. The last line counts what passed and what failed.
set -u
cd "$(dirname "$0")/.." || exit 2
exec python3 - <<'PYTHON'
import pathlib, re, shutil, subprocess

PROGRAM = pathlib.Path("crates/thiele_cli/out/thiele_cli")
BASH, ZSH, PAGE = "completions/thiele_cli.bash", "completions/_thiele_cli", "man/thiele_cli.1"
FORMS, ABOUT = {"csv", "json", "explain"}, {"help", "version"}
passed = failed = 0


def told(name, fault):
    """Counts a test, which has failed where there is a fault."""
    global passed, failed
    passed, failed = passed + (not fault), failed + bool(fault)
    if fault:
        print(f"FAILED {name}: {fault}")


def difference(found, wanted):
    """What is missing in a set, or in it without being wanted; nothing where both are the same."""
    parts = [f"no {word}" for word in sorted(wanted - found)] + [f"also {word}" for word in sorted(found - wanted)]
    return ", ".join(parts)


def read_words():
    """The strings of the crate that reads the words, without its comments and tests."""
    words = set()
    for path in pathlib.Path("crates/command_words/src").glob("**/*.rt"):
        if path.stem != "tests":
            code = "\n".join(line.split("//")[0] for line in path.read_text(encoding="utf-8").split("\n"))
            words |= set(re.findall(r'"([a-z]+)"', code))
    return words


def of_usages(usages):
    """A dictionary from the first word of each usage to the words behind it."""
    return {usage.split(" ")[0]: usage.split(" ")[1:] for usage in usages}


def page_usages():
    text = pathlib.Path(PAGE).read_text(encoding="utf-8")
    sections = dict(re.findall(r"^\.SH ([^\n]*)\n(.*?)(?=^\.SH |\Z)", text, re.M | re.S))
    lines = re.findall(r"^\.TP\n\.BI? (.*)$", sections["COMMANDS"] + sections["FORMS"], re.M)
    return of_usages(line.replace('"', "").replace("  ", " ") for line in lines)


def readme_usages():
    text = pathlib.Path("README.md").read_text(encoding="utf-8")
    table = re.search(r"^\| words \| answer \|\n\|[-|]*\n((?:\|.*\n)*)", text, re.M).group(1)
    return of_usages(usage for row in table.splitlines() for usage in re.findall(r"`([^`]*)`", row.split("|")[1]))


def help_usages():
    """Of each line of `help`, behind the colon, the parts between commas."""
    text = subprocess.run([PROGRAM, "help"], capture_output=True, text=True, check=True).stdout
    return of_usages(part.strip() for line in text.splitlines() for part in line.split(":")[-1].split(","))


def offered(*words):
    """What the completion of bash offers behind these words."""
    script = ('source "$1"; shift; COMP_WORDS=(thiele_cli "$@" ""); COMP_CWORD=$(($# + 1)); _thiele_cli; '
              'printf "%s\\n" "${COMPREPLY[@]}"')
    ran = subprocess.run(["bash", "-c", script, "bash", BASH, *words], capture_output=True, text=True, check=True)
    return set(ran.stdout.split())


words = read_words()
told("the program reads the forms and help", difference(words & (FORMS | ABOUT), FORMS | ABOUT))
page, readme = page_usages(), readme_usages()
told("man page", difference(set(page), words))
told("README", difference(set(readme), words))
told("the words behind each, man page and README", [w for w in page if w in readme and page[w] != readme[w]])

rows = offered("csv")
told("bash", difference(offered(), words))
told("bash, before a command", difference(offered("explain"), words - FORMS - ABOUT))
told("bash, rows alone", difference(offered("json"), rows) or difference(rows & words, rows))
zsh = pathlib.Path(ZSH).read_text(encoding="utf-8")
told("zsh", difference(set(re.findall(r"'([a-z]+):", zsh)), words))
zsh_rows = re.search(r"rows=\((.*?)\n  \)", zsh, re.S).group(1)
told("zsh, rows alone", difference(set(re.findall(r"'([a-z]+):", zsh_rows)), rows))
# where the shells and the formatter are, they must take the files
for program, *more in [("bash", "-n", BASH), ("zsh", "-n", ZSH), ("groff", "-man", "-ww", "-z", PAGE)]:
    if shutil.which(program):
        ran = subprocess.run([program, *more], capture_output=True, text=True)
        told(f"{program} takes {more[-1]}", ran.stdout + ran.stderr or ran.returncode)

if PROGRAM.exists():
    helped = help_usages()
    told("help", difference(set(helped), words))
    told("the words behind each, help and man page", [w for w in helped if w in page and helped[w] != page[w]])
else:
    print("left out: help, since the program is not built")
print(f"words: {passed} passed, {failed} failed")
raise SystemExit(failed > 0)
PYTHON
