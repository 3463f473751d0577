#!/usr/bin/env python3
"""Makes a small book of policies: make_book.py FOLDER [POLICIES]

FOLDER/products gets twelve product files, the disability income of examples/disability.toml by four entry ages and three
terms; FOLDER/policies.csv gets POLICIES policies (10,000 if left out), drawn from a seed: so each run makes the same.
"""
import pathlib, random, sys

AGES, YEARS, COHORTS = (30, 35, 40, 45), (10, 20, 30), range(2004, 2024)


def millionths(rate, age, years):
    """Pieces of five years: the rate a year at their two ends, rounded to millionths, and a straight line between."""
    ends = [round(rate(age + year) * 1_000_000) for year in range(0, years + 5, 5)]
    return ", ".join(f"{{ from = {60 * i}, c = [{a}, {round((b - a) / 5)}] }}" for i, (a, b) in enumerate(zip(ends, ends[1:])))


def product(age, years):
    """Disability income of 24,000.00 a year from this age on, in cents, for 640.00 a year while active."""
    disabled = millionths(lambda x: 0.0004 + 10 ** (0.06 * x - 5.46), age, years)
    active = millionths(lambda x: 3 * 2.718281828 ** (-0.075 * x), age, years)
    dead = millionths(lambda x: 0.0005 + 10 ** (0.038 * x - 4.12), age, years)
    rates = [("active", "disabled", disabled), ("disabled", "active", active),
             ("active", "dead", dead), ("disabled", "dead", dead)]
    lines = ["format = 1", f'name = "disability-{age}-{years}"', f"months = {12 * years}", "den = 1000000",
             'start = "active"', 'states = ["active", "disabled", "dead"]', "interest = [{ from = 0, c = [30000] }]"]
    for old, new, rate in rates:
        lines += ["", "[[transition]]", f'from = "{old}"', f'to = "{new}"', f"rate = [{rate}]"]
    for state, amount in (("disabled", 2400000), ("active", -64000)):
        lines += ["", "[[sojourn]]", f'state = "{state}"', f"steps = [{{ from = 0, amount = {amount} }}]"]
    return "\n".join([*lines, ""])


folder, policies = pathlib.Path(sys.argv[1]), int(sys.argv[2]) if len(sys.argv) > 2 else 10_000
(folder / "products").mkdir(parents=True, exist_ok=True)
for age in AGES:
    for years in YEARS:
        (folder / "products" / f"disability-{age}-{years}.toml").write_text(product(age, years), encoding="utf-8")
draw = random.Random(7)
with open(folder / "policies.csv", "w", encoding="utf-8") as book:
    book.write("policy,product,group,month,state\n")
    for policy in range(policies):
        years = draw.choice(YEARS)
        name = f"disability-{draw.choice(AGES)}-{years}"
        state = "disabled" if draw.random() < 0.05 else "active"
        book.write(f"{policy},{name},{draw.choice(COHORTS)},{draw.randrange(12 * years)},{state}\n")
