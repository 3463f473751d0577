#!/usr/bin/env python3
"""An outside check of reserves: python3 tools/recheck.py PRODUCT REPORT [EVERY]

Reads the product file PRODUCT and REPORT, the text of `thiele_cli reserves PRODUCT EVERY` (EVERY is 1 where it is left
out), solves Thiele's differential equations on its own, in whole numbers with a proved error, and asks of every row: is
the solution proved to lie in the interval? No floats, nothing of the program. docs/RECHECK.md has the proof.
Exit status 0: all agrees. 1: the line that is named does not, or is not proved to. 2: no product, or no such file.
"""
import collections, functools, itertools, math, pathlib, re, sys, tomllib

# amounts are whole numbers of 1 / UNIT minor units, so that months and millionths leave no remainder
FINE = 10**16
UNIT = 12**5 * FINE
Product = collections.namedtuple("Product", "name months den states interest exits sojourns lumps")

def need(holds, wanted):
    if not holds:
        raise ValueError(f"wanted: {wanted}")

def taken(table, needed, more=""):
    """The values of these keys; the table has all that are needed, and no others."""
    need(set(needed.split()) <= table.keys() <= set((needed + " " + more).split()), f"the keys {needed} {more}")
    return [table.get(key) for key in (needed + " " + more).split()]

def once(pairs):
    """The pairs as a table in which no key comes twice."""
    need(len(dict(pairs)) == len(pairs), "different states, and one transition, sojourn or lump sum for each")
    return dict(pairs)

def parts_of(months, key, most, listed):
    """The pieces of a curve or the steps of a payment, each as its first month and its coefficients."""
    if listed is None:
        return [(0, [0])]
    parts = [(start, [c] if key == "amount" else c) for start, c in (taken(part, "from " + key) for part in listed)]
    starts = [start for start, _ in parts] + [months]
    need(all(type(x) is int for start, c in parts for x in (start, *c)), "whole numbers")
    need(all(1 <= len(c) <= most for _, c in parts), f"1 to {most} coefficients")
    need(starts[0] == 0 and all(a < b for a, b in itertools.pairwise(starts)), "parts from month 0 on, in order")
    return parts

def read_product(tree):
    """The product of the file. The start state and the premium pattern do not matter to reserves."""
    form, name, months, den, _, states, interest, exits, sojourns, lumps, _ = taken(
        tree, "format name months den start states interest", "transition sojourn lump premium")
    need({type(form), type(months), type(den)} == {int} and form in (1, 2) and den > 0, "format, months and den")
    place = once([(state, i) for i, state in enumerate(states)])
    curve = functools.partial(parts_of, months, "c", 4 if form == 1 else 6)
    payment = functools.partial(parts_of, months, "amount" if form == 1 else "c", 4)
    exits = [taken(part, "from to rate", "sum") for part in exits or []]
    sojourns = [taken(part, "state steps") for part in sojourns or []]
    lumps = [taken(part, "month state amount") for part in lumps or []]
    need(all(a != b for a, b, _, _ in exits), "transitions from one state to another")
    need(all(type(m) is type(amount) is int and 0 <= m <= months for m, _, amount in lumps), "lump sums at dates")
    return Product(name, months, den, states, curve(interest),
                   once([((place[a], place[b]), (curve(rate), payment(paid))) for a, b, rate, paid in exits]),
                   once([(place[state], payment(steps)) for state, steps in sojourns]),
                   once([((month, place[state]), amount * UNIT) for month, state, amount in lumps]))

def over_month(parts, month):
    """The curve's coefficients over 12^5 in the month, by s: 0 at its end, 1 at its start, t = (end - s) / 12 years."""
    start, c = next(part for part in reversed(parts) if part[0] <= month)
    c, end = [x * 12**(5 - i) for i, x in enumerate(c)], month + 1 - start
    return [(-1)**j * sum(math.comb(i, j) * end**(i - j) * c[i] for i in range(j, len(c))) for j in range(6)]

def bernstein(curve):
    """Ten times the Bernstein coefficients of degree 5 over the month: the curve lies between least and greatest."""
    return [sum(math.comb(j, i) * 10 // math.comb(5, i) * curve[i] for i in range(j + 1)) for j in range(6)]

def equations(product, month):
    """Thiele's equations by s, a month, over 12^6 den: for each state the numbers by power and by the state that they
    multiply, which is -1 where they are paid; and ten times the least interest, or 0 where that is less."""
    interest = over_month(product.interest, month)
    terms = [collections.Counter({(m, i): -r for m, r in enumerate(interest)}) for i, _ in enumerate(product.states)]
    for state, steps in product.sojourns.items():
        terms[state].update({(m, -1): x * FINE * 12**5 * product.den for m, x in enumerate(over_month(steps, month))})
    for (source, target), (rate, paid) in product.exits.items():
        intensity, amounts = over_month(rate, month), over_month(paid, month)
        need(min(bernstein(intensity)) >= 0, f"an intensity that is not negative in month {month}")
        for m, mu in ((m, mu) for m, mu in enumerate(intensity) if mu):
            terms[source].update({(m, source): -mu, (m, target): mu})
            terms[source].update({(m + k, -1): mu * amount * FINE for k, amount in enumerate(amounts) if amount})
    return [{key: x for key, x in row.items() if x} for row in terms], min(0, *bernstein(interest))

def month_back(product, month, values, error):
    """The values at the month's start and a bound of their error, from those at its end with that date's lump sums."""
    terms, least = equations(product, month)
    unit, w, defect = 12**6 * product.den, [values + [1]], [0 for _ in values]
    need(10 * unit + least > 0, f"a greater interest in month {month}")
    # once six coefficients are 0, and nothing is paid at higher powers, all further ones are 0
    while len(w) < 12 or any(map(any, w[-6:])):
        k, row = len(w), []
        for state, numbers in enumerate(terms):
            exact = sum(x * w[k - 1 - m][j] for (m, j), x in numbers.items() if m < k)
            row.append((2 * exact + k * unit) // (2 * k * unit))
            defect[state] += abs(k * unit * row[state] - exact)
        w.append(row + [0])
    # (error + defect / unit) / (1 + least / (10 unit)), rounded up
    return [sum(column) for column in zip(*w)][:-1], -(-10 * (error * unit + max(defect)) // (10 * unit + least))

def solved(product):
    """By date: the reserves in all states, without the lump sums of the date, and the bound of their error."""
    dates = {product.months: ([0 for _ in product.states], 0)}
    for month in reversed(range(product.months)):
        values, error = dates[month + 1]
        values = [x + product.lumps.get((month + 1, state), 0) for state, x in enumerate(values)]
        dates[month] = month_back(product, month, values, error)
    return dates

def decimal(millionths):
    return "-" * (millionths < 0) + re.sub("(.{6})$", r".\1", str(abs(millionths)).rjust(7, "0"))

def check(product, lines, every):
    """Prints what was found of the report: the first line that does not agree, or that all do. The exit status."""
    told, widths, signs, fields, faults, farthest = [], ["column 1"], ["column 2"], ["column 3"], {}, 0
    dates = solved(product)
    asked = [(month, state) for month in range(0, product.months + 1, every) for state in range(len(product.states))]
    for (month, state), line in zip(asked, lines[2:] + len(asked) * [""]):
        found = re.findall(r" (-?[0-9]{1,25}[.][0-9]{6})\b", line) + 3 * ["0"]
        low, high, tolerance = (int(number.replace(".", "")) for number in found[:3])
        told.append(f"{month} {product.states[state]} reserve {decimal(low)} {decimal(high)} {decimal(tolerance)}")
        widths.append(f"{month} {state} {decimal(high - low)}")
        signs.append(f"{month} {state} " + ("+" if low > 0 else "-" if high < 0 else "?" if low < high else "0"))
        fields.append(f"{month},{state},reserve,{decimal(low)},{decimal(high)}")
        least, most = (10**6 * (dates[month][0][state] + error) for error in (-dates[month][1], dates[month][1]))
        farthest = max(farthest, (high + low) * UNIT - 2 * least, 2 * most - (high + low) * UNIT)
        if high - low > tolerance:
            faults[2 + len(told)] = "is wider than its tolerance"
        if not low * UNIT <= least <= most <= high * UNIT:
            proved = "" if most < low * UNIT or high * UNIT < least else "is not proved to hold"
            faults[2 + len(told)] = f"{proved or 'does not hold'} the solution, {decimal(least // UNIT)}.."
    head = (re.findall("^degree [0-9]+ scale [0-9]+$", "".join(lines[1:2])) + ["degree N scale G"])[0]
    wanted = [f"report reserves {product.name}", head, *told, f"end {len(asked)}", *widths, *signs, *fields, ""]
    for place, (line, text) in enumerate(itertools.zip_longest(lines, wanted), 1):
        if line != text or place in faults:
            print(f"line {place}: {line}\n{faults[place] if line == text else 'wanted: ' + (text or 'the end')}")
            return 1
    print(f"solved Thiele's equations within 10^-{len(str(UNIT // (dates[0][1] + 1))) - 1} minor units")
    print(f"rows {len(asked)}: each holds the solution, its middle within {decimal(-(-farthest // (2 * UNIT)))} of it")
    return 0

if __name__ == "__main__":
    try:
        _, file, report, every = sys.argv + ["1"] * (len(sys.argv) == 3)
        tree = tomllib.loads(pathlib.Path(file).read_bytes().decode())
        lines = pathlib.Path(report).read_bytes().decode(errors="replace").split("\n")
        sys.exit(check(read_product(tree), lines, int(every)))
    except (OSError, ValueError, LookupError, TypeError, AttributeError, RecursionError) as error:
        print(f"recheck: {error!r}", file=sys.stderr)
        sys.exit(2)
