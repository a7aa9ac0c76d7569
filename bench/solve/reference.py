"""A plain reading of the pivot rule, for comparison: every basis is solved afresh by Gaussian elimination on exact
fractions, and nothing is kept from one exchange to the next.

A table is (budget, wants, columns); a column is (kind, price, {place: part}) with kind `row`, `import` or `surplus`.
Places of columns: the unit columns first, in the order of goods, then the table's.
"""
from fractions import Fraction
from math import gcd

LIMIT = 1 << 127


def fits(x):
    return abs(x.numerator) < LIMIT and x.denominator < LIMIT


def sum_fits(x, y):
    common = x.denominator * y.denominator // gcd(x.denominator, y.denominator)
    a, b = x.numerator * (common // x.denominator), y.numerator * (common // y.denominator)
    return all(abs(k) < LIMIT for k in (common, a, b, a + b))


class System:
    def __init__(self, wants, columns):
        self.goods, self.lines = len(wants), len(columns)
        self.price = [Fraction(0)] * self.goods + [c[1] for c in columns]
        self.part = [[Fraction(k == g) for g in range(self.goods)] for k in range(self.goods)]
        self.part += [[c[2].get(g, Fraction(0)) for g in range(self.goods)] for c in columns]
        self.want = wants
        self.all = range(self.goods + self.lines)
        self.table = range(self.goods, self.goods + self.lines)

    def entries(self, basis):
        """The coefficients of each column, and of the wants, in the basis."""
        n = self.goods
        rows = [
            [self.part[c][g] for c in basis] + [self.part[c][g] for c in self.all] + [self.want[g]] for g in range(n)
        ]
        for i in range(n):
            p = next(r for r in range(i, n) if rows[r][i] != 0)
            rows[i], rows[p] = rows[p], rows[i]
            rows[i] = [x / rows[i][i] for x in rows[i]]
            for r in range(n):
                if r != i and rows[r][i] != 0:
                    rows[r] = [x - rows[r][i] * y for x, y in zip(rows[r], rows[i])]
        entry = [{b: rows[i][n + c] for i, b in enumerate(basis)} for c in self.all]
        value = {b: rows[i][-1] for i, b in enumerate(basis)}
        return entry, value

    def reduced(self, entry, c):
        return self.price[c] - sum(x * self.price[b] for b, x in entry[c].items())

    def settled(self, basis, entry, value):
        units = [b for b in basis if b < self.goods]
        if all(value[b] == 0 for b in units) and all(self.reduced(entry, c) >= 0 for c in self.table):
            return "plan", None
        for b in units:
            if value[b] > 0 and all(entry[c][b] <= 0 for c in self.table):
                return "infeasible", b
        return None

    def next(self, basis, entry, value):
        aim = next((b for b in sorted(basis) if b < self.goods and any(entry[c][b] != 0 for c in self.table)), None)
        if aim is not None and value[aim] == 0:
            return next(c for c in self.table if entry[c][aim] != 0), aim
        if aim is not None:
            enter = next(c for c in self.table if entry[c][aim] > 0)
        else:
            enter = next(c for c in self.table if self.reduced(entry, c) < 0)
        return enter, min((b for b in basis if entry[enter][b] > 0), key=lambda b: (value[b] / entry[enter][b], b))

    def forms_wide(self, basis, entry, value, enter, leave):
        def less(t, u, v):
            return fits(u * v) and sum_fits(t, -(u * v))

        row = [entry[c][leave] / entry[enter][leave] for c in self.all]
        last = value[leave] / entry[enter][leave]
        if not all(fits(x) for x in row) or not fits(last):
            return True
        for b in basis:
            if b != leave:
                u = entry[enter][b]
                if not all(less(entry[c][b], u, row[c]) for c in self.all) or not less(value[b], u, last):
                    return True
        u = self.reduced(entry, enter)
        total = sum(value[b] * self.price[b] for b in basis)
        return not all(less(self.reduced(entry, c), u, row[c]) for c in self.all) or not (
            fits(u * last) and sum_fits(total, u * last)
        )


def show(x):
    return str(x.numerator) if x.denominator == 1 else "%d/%d" % (x.numerator, x.denominator)


def solve(table):
    """The line that `solve_tables` prints of a table."""
    budget, wants, columns = table
    s = System(wants, columns)
    names = ["u%d" % g for g in range(s.goods)]
    for j, (kind, _, parts) in enumerate(columns):
        names.append("r%d" % j if kind == "row" else "%s%d" % (kind[0], next(iter(parts))))
    step = lambda e, l: "%s>%s" % (names[e], names[l])
    basis, trail = list(range(s.goods)), []
    while True:
        entry, value = s.entries(basis)
        done = s.settled(basis, entry, value)
        if done:
            break
        if len(trail) == budget:
            return " ".join(["out"] + trail)
        enter, leave = s.next(basis, entry, value)
        if s.forms_wide(basis, entry, value, enter, leave):
            return " ".join(["wide"] + trail + ["next", step(enter, leave)])
        trail.append(step(enter, leave))
        basis = [enter if b == leave else b for b in basis]
    if done[0] == "infeasible":
        return " ".join(["infeasible"] + [show(entry[g][done[1]]) for g in range(s.goods)] + ["checked"])
    prices = [-s.reduced(entry, g) for g in range(s.goods)]
    rates = [value.get(c, Fraction(0)) for c in s.table]
    cost = sum(r * s.price[c] for r, c in zip(rates, s.table))
    return " ".join(
        ["plan", show(cost), "rates"] + [show(x) for x in rates] + ["prices"] + [show(x) for x in prices] + ["checked"]
    )


def text(table):
    """A table as `solve_tables` reads it."""
    budget, wants, columns = table
    lines = ["table %d %d" % (budget, len(wants)), " ".join(["wants"] + [show(w) for w in wants])]
    for kind, price, parts in columns:
        if kind == "row":
            lines.append(" ".join(["row", show(price)] + ["%d %s" % (p, show(x)) for p, x in sorted(parts.items())]))
        else:
            lines.append("%s %s %d" % (kind, show(price), next(iter(parts))))
    return "\n".join(lines + ["solve", ""])
