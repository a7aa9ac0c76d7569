"""Writes the small random tables on which `solve_tables` is run, and what it must print of them:

    python3 small_tables.py ../../crates/solve_tables
"""
import random
import sys
from fractions import Fraction
from pathlib import Path

from reference import solve, text

THIRD = Fraction(333333333333333, 10**15)


def worked():
    gear = ("row", Fraction(0), {0: Fraction(-2), 1: Fraction(1)})
    plate = ("import", Fraction(1), {0: Fraction(1)})
    dear = ("row", Fraction(3), {0: Fraction(-2), 1: Fraction(1)})
    rid = ("surplus", Fraction(0), {1: Fraction(-1)})
    mix = lambda i: ("row", Fraction(0), {i: -THIRD, i + 1: Fraction(1)})
    f = lambda *xs: [Fraction(x) for x in xs]
    yield 1000, f(0, 10), [gear, plate]
    yield 1000, f(0, 10), [gear]
    yield 1000, f(0, 0), [gear, plate]
    yield 1000, f(0, 1), [dear, plate, rid]
    yield 1, f(5, 10), [gear, plate]
    yield 1000, f(5, 10), [gear, plate]
    yield 1000, f(0, 0, 0, 1), [mix(0), mix(1), mix(2), plate]
    yield 1000, f(0, 1), [mix(0), plate]


def part(r, big):
    x = r.choice([-3, -2, -1, -1, 1, 1, 2, 3])
    if big and r.random() < 0.6:
        return x * r.choice([THIRD, Fraction(10**15 - 1, 7), Fraction(1, 10**14 + 3)])
    return Fraction(x, r.choice([1, 1, 1, 2, 3]))


def any_table(r):
    goods = r.randint(1, 5)
    big = r.random() < 0.15
    columns = []
    for _ in range(r.randint(0, 5)):
        places = r.sample(range(goods), r.randint(0, min(3, goods)))
        columns.append(
            ("row", Fraction(r.choice([0, 0, 1, 2, 3]), r.choice([1, 2])), {p: part(r, big) for p in sorted(places)})
        )
    for kind, sign, chance in (("import", 1, 0.5), ("surplus", -1, 0.3)):
        for g in range(goods):
            if r.random() < chance:
                columns.append((kind, Fraction(r.choice([0, 1, 1, 5]), r.choice([1, 3])), {g: Fraction(sign)}))
    wants = [Fraction(r.choice([0, 0, 1, 2, 10]), r.choice([1, 1, 7])) for _ in range(goods)]
    return r.choice([1, 2, 1000, 1000, 1000]), wants, columns


def main(folder):
    r = random.Random(20261127)
    tables = list(worked()) + [any_table(r) for _ in range(2000)]
    lines = [solve(t) for t in tables]
    Path(folder, "stdin").write_text("".join(text(t) for t in tables))
    Path(folder, "stdout").write_text("".join(l + "\n" for l in lines))
    kinds = [l.split()[0] for l in lines]
    print({k: kinds.count(k) for k in sorted(set(kinds))})


main(sys.argv[1])
