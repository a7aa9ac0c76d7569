#!/usr/bin/env python3
"""Times the solver on random tables like those of factories, beside glpsol on the same table, in processor time.

    bench/solve/run.py [--rounds N] [SIZE ..]      10, 30, 100 and 200 rows where nothing is named

The solver is the program of crates/solve_tables, the peer Debian's glpk-utils: `glpsol --exact`, and glpsol with floating point. All are whole
processes that read the table in text, the least of the rounds. For each table it also prints how many exchanges the solver makes and the time that
it takes of the process. The costs have to agree in every digit that glpsol prints.
"""
import argparse
import os
import random
import re
import shutil
import sys
from fractions import Fraction
from typing import List

sys.dont_write_bytecode = True
sys.path.insert(1, os.path.join(sys.path[0], ".."))
import programs  # noqa: E402
from reference import text  # noqa: E402
from table import beside, tell, without_peer  # noqa: E402

SEEDS = (1, 2, 3)
PEERS = [("`glpsol --exact`", ["--exact"]), ("`glpsol` (floating point)", [])]


def factory(rows, seed):
    """Chains of recipes from raw goods, with by-products that may be thrown away, some of them cracked into others, and a
    few loops that give back a part of what they take."""
    r = random.Random(rows * 1000 + seed)
    raw = max(2, rows // 10)
    goods, columns, spare = raw, [], set()
    while len(columns) < rows:
        kind = r.random()
        if kind < 0.12 and len(spare) > 1:  # cracking
            a, b = r.sample(sorted(spare), 2)
            columns.append(("row", Fraction(0), {a: Fraction(-r.choice([2, 4])), b: Fraction(r.choice([1, 2]))}))
            continue
        take = r.sample(range(max(0, goods - 12), goods), min(goods, r.randint(1, 3)))
        parts = {g: Fraction(-r.randint(1, 4), r.choice([1, 1, 1, 2])) for g in take}
        made = goods
        goods += 1
        parts[made] = Fraction(r.choice([1, 1, 1, 2]))
        if kind < 0.35:  # a by-product
            parts[goods] = Fraction(1, r.choice([1, 2]))
            spare.update((made, goods))
            goods += 1
        elif kind < 0.45:  # a loop: a part of an ingredient comes back
            parts[take[0]] = parts[take[0]] * Fraction(1, 2)
        columns.append(("row", Fraction(r.randint(0, 3)), parts))
    columns += [("import", Fraction(r.randint(1, 9)), {g: Fraction(1)}) for g in range(raw)]
    columns += [("surplus", Fraction(0), {g: Fraction(-1)}) for g in sorted(spare)]
    wants = [Fraction(0)] * goods
    for g in r.sample(range(goods // 2, goods), max(1, rows // 10)):
        wants[g] = Fraction(r.randint(1, 10))
    return wants, columns


def linear_program(table):
    """The table as CPLEX LP text, whose numbers are decimals."""
    wants, columns = table
    number = lambda x: repr(float(x))
    lines = [
        "minimize",
        " cost: " + " + ".join("%s x%d" % (number(c[1]), j) for j, c in enumerate(columns)),
        "subject to",
    ]
    by_good = [[] for _ in wants]
    for j, (_, _, parts) in enumerate(columns):
        for g, x in parts.items():
            by_good[g].append("%s %s x%d" % ("+" if x > 0 else "-", number(abs(x)), j))
    for g, terms in enumerate(by_good):
        if terms:
            lines.append(" g%d: %s = %s" % (g, " ".join(terms), number(wants[g])))
    return "\n".join(lines + ["end", ""])


def solved(table, budget):
    """The solver's run on a table with a budget, and its words: the kind of the answer, the cost and the nanoseconds."""
    ran = programs.well(
        [programs.built("solve_tables"), "time"], programs.written("table.txt", text((budget,) + table))
    )
    return ran, ran.said.split()


def exchanges(table):
    """The least budget that is enough."""
    high = 1
    while solved(table, high)[1][0] == "out":
        high *= 2
    low = high // 2
    while low + 1 < high:
        middle = (low + high) // 2
        low, high = (middle, high) if solved(table, middle)[1][0] == "out" else (low, middle)
    return high


def answer_of(result):
    """The kind of an answer of glpsol, and its cost."""
    found = result.read_text()
    if "UNDEFINED" in found or "INFEASIBLE" in found:
        return "infeasible", "0"
    return "plan", re.search(r"Objective:\s+cost = (\S+)", found).group(1)


def agree(cost, printed):
    """Whether a cost is what glpsol printed, in each of its digits."""
    digits = max(9, len(re.sub(r"e.*|[-.]|^0+", "", printed)))
    return "%.*g" % (digits, Fraction(cost)) == "%.*g" % (digits, Fraction(printed))


def measured(size: int, rounds: int) -> None:
    """Tells what the tables of a size take."""
    ours: List[float] = []
    theirs: List[List[float]] = [[] for _ in PEERS]
    kinds = []
    has_peer = shutil.which("glpsol")
    for seed in SEEDS:
        table = factory(size, seed)
        program, result = programs.written("table.lp", linear_program(table)), programs.scratch() / "result.txt"
        runs: List[list] = [[] for _ in PEERS]
        mine = []
        for _ in range(rounds):
            mine.append(solved(table, 1000000))
            for (_, words), each in zip(PEERS, runs if has_peer else []):
                each.append(programs.well(["glpsol", *words, "--lp", program]))
        kind, cost, nanoseconds = mine[-1][1]
        if has_peer:
            programs.well(["glpsol", "--exact", "--lp", program, "-o", result])
            other, printed = answer_of(result)
            if kind in ("plan", "infeasible") and (kind != other or kind == "plan" and not agree(cost, printed)):
                sys.exit("the answers differ: %s %s and %s %s" % (kind, cost, other, printed))
            for each, spent in zip(runs, theirs):
                spent.append(programs.least(each))
        kinds.append(kind)
        ours.append(min(ran.seconds for ran, _ in mine))
        count = exchanges(table)
        print(
            "%d rows, seed %d: %d goods, %d columns, %s after %d exchanges, %.1f us each; the process %.2f ms; glpsol %s"
            % (
                size,
                seed,
                len(table[0]),
                len(table[1]),
                kind,
                count,
                min(int(words[2]) for _, words in mine) / 1e3 / max(1, count),
                ours[-1] * 1e3,
                ", ".join("%.2f ms" % (spent[-1] * 1e3) for spent in theirs if spent),
            ),
            flush=True,
        )
    kinds = sorted(set(kinds))
    what = "%d random tables of %d rows (%s)" % (len(SEEDS), size, ", ".join(kinds))
    if not has_peer:
        tell(without_peer(what, ours, "glpk-utils"))
        return
    for (name, _), spent in zip(PEERS, theirs):
        tell(beside(what, ours, name, spent, "a whole process, which reads the table, as ours"))


def main() -> None:
    options = argparse.ArgumentParser(description=__doc__, formatter_class=argparse.RawDescriptionHelpFormatter)
    options.add_argument("--rounds", type=int, default=5)
    options.add_argument("sizes", type=int, nargs="*", default=[10, 30, 100, 200])
    given = options.parse_args()
    for size in given.sizes:
        measured(size, given.rounds)


if __name__ == "__main__":
    main()
