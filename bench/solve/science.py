#!/usr/bin/env python3
"""Times one large table: the science of the example's game, each recipe of it plain, and full of each of two productivity modules.

    bench/solve/science.py [--rounds N] [--program PROGRAM]

The table in its linear form, as the program of crates/solve_tables reads it (with the word `time`, so that it doesn't look at the plan's prices again),
and the table as rows of a script, beside glpsol on the same linear form (Debian's glpk-utils): `glpsol --exact`, and glpsol with floating point.
Processor times of whole processes, which run in turns; of the run of the script what a run over an empty script takes is left out. The figures are
the least of the rounds, 45 where no number is named, and the ratio is the median of the rounds' ratios. The costs have to agree in every digit that
glpsol prints.
"""
import argparse
import json
import os
import re
import shutil
import sys
from fractions import Fraction
from statistics import median

sys.dont_write_bytecode = True
sys.path.insert(1, os.path.join(sys.path[0], ".."))
import programs  # noqa: E402
from reference import text  # noqa: E402
from run import agree, PEERS  # noqa: E402
from table import beside, ratio, tell, without_peer  # noqa: E402

DUMP = programs.TOP / "examples" / "factory.json"
ITEMS = ["item", "tool", "module", "ammo", "gun", "armor", "capsule", "repair-tool", "rail-planner"]
PACKS = ["automation", "logistic", "military", "chemical", "production", "utility"]
PRICES = {
    "item:iron-ore": "1",
    "item:copper-ore": "1",
    "item:coal": "1/2",
    "item:stone": "1/3",
    "item:wood": "2",
    "item:uranium-ore": "5",
    "fluid:crude-oil": "1/10",
    "fluid:water": "1/1000",
}
MODULES = ["productivity-module", "productivity-module-3"]


def part(entry):
    """A good with its amount, and the share of it that productivity multiplies."""
    if isinstance(entry, list):
        return "item:" + entry[0], Fraction(str(entry[1])), Fraction(str(entry[1]))
    amount = Fraction(str(entry["amount"])) * Fraction(str(entry.get("probability", 1)))
    return entry["type"] + ":" + entry["name"], amount, amount - Fraction(str(entry.get("catalyst_amount", 0)))


def parts(recipe):
    taken = [part(entry) for entry in recipe["ingredients"]]
    results = recipe.get("results") or [[recipe["result"], recipe.get("result_count", 1)]]
    return taken, [part(entry) for entry in results]


class Science:
    """The rows of the table: what each takes and gives, and the line that makes it."""

    def __init__(self, game):
        self.game, self.rows = game, []
        makers = {}
        for name, recipe in game["recipe"].items():
            if not name.startswith(("fill-", "empty-")):
                for good, _, _ in parts(recipe)[1]:
                    makers.setdefault(good, []).append(name)
        wanted, seen, self.recipes = ["item:%s-science-pack" % pack for pack in PACKS], set(), []
        while wanted:
            good = wanted.pop()
            if good in seen or good in PRICES:
                continue
            seen.add(good)
            for name in makers.get(good, []):
                if name not in self.recipes and self.machine(name):
                    self.recipes.append(name)
                    wanted += [g for side in parts(game["recipe"][name]) for g, _, _ in side]
        for name in self.recipes:
            self.add(name, name, None)
            for place, module in enumerate(MODULES):
                if name in game["module"][module]["limitation"]:
                    self.add("%s+%d" % (name, place + 1), name, module)

    def machine(self, name):
        category = self.game["recipe"][name].get("category", "crafting")
        fitting = [
            m
            for section in ("assembling-machine", "furnace")
            for m in self.game[section].values()
            if category in m["crafting_categories"] and m["energy_source"]["type"] == "electric"
        ]
        return max(fitting, key=lambda m: m["crafting_speed"], default=None)

    def add(self, label, name, module):
        machine, bonus, fill = self.machine(name), 0, ""
        if module:
            slots = machine["module_specification"]["module_slots"]
            bonus = slots * Fraction(str(self.game["module"][module]["effect"]["productivity"]["bonus"]))
            fill = " module item:%s %d" % (module, slots)
        column, (taken, given) = {}, parts(self.game["recipe"][name])
        for good, amount, _ in taken:
            column[good] = column.get(good, 0) - amount
        for good, amount, multiplied in given:
            column[good] = column.get(good, 0) + amount + bonus * multiplied
        self.rows.append(
            (label, column, "row science %s recipe:%s by machine:%s%s" % (label, name, machine["name"], fill))
        )

    def goods(self):
        return sorted({good for _, column, _ in self.rows for good in column})

    def free(self):
        """Goods that may go out at no price: what some recipe gives beside another."""
        beside = [parts(self.game["recipe"][name])[1] for name in self.recipes]
        return sorted({good for given in beside if len(given) > 1 for good, _, _ in given})

    def script(self):
        lines = ["table science"] + [line for _, _, line in self.rows]
        lines += ["import science %s %s" % (good, PRICES[good]) for good in self.goods() if good in PRICES]
        lines += ["surplus science %s 0" % good for good in self.free()]
        lines += ["want science item:%s-science-pack 3/4" % pack for pack in PACKS]
        return "\n".join(lines + ["solve science", ""])

    def linear_table(self):
        """The table as `solve_tables` reads it, with goods in the order of the dump, as `factoplan` numbers them."""
        known = ["item:" + name for section in ITEMS for name in self.game[section]] + [
            "fluid:" + name for name in self.game["fluid"]
        ]
        mentioned, free = set(self.goods()), set(self.free())
        goods = [good for good in known if good in mentioned]
        place = {good: k for k, good in enumerate(goods)}
        columns = [
            ("row", Fraction(0), {place[good]: x for good, x in column.items() if x}) for _, column, _ in self.rows
        ]
        columns += [("import", Fraction(PRICES[good]), {place[good]: Fraction(1)}) for good in goods if good in PRICES]
        columns += [("surplus", Fraction(0), {place[good]: Fraction(-1)}) for good in goods if good in free]
        packs = ["item:%s-science-pack" % pack for pack in PACKS]
        return text((1000000, [Fraction(3, 4) if good in packs else Fraction(0) for good in goods], columns))

    def linear_program(self):
        number = lambda x: repr(float(x))
        imports = [good for good in self.goods() if good in PRICES]
        columns = [("x%d" % j, 0, column) for j, (_, column, _) in enumerate(self.rows)]
        columns += [("i%d" % j, Fraction(PRICES[good]), {good: 1}) for j, good in enumerate(imports)]
        columns += [("s%d" % j, 0, {good: -1}) for j, good in enumerate(self.free())]
        lines = [
            "minimize",
            " cost: " + " + ".join("%s %s" % (number(price), name) for name, price, _ in columns if price),
            "subject to",
        ]
        for g, good in enumerate(self.goods()):
            terms = [
                "%s %s %s" % ("-" if c[good] < 0 else "+", number(abs(c[good])), name)
                for name, _, c in columns
                if c.get(good)
            ]
            want = Fraction(3, 4) if good in ["item:%s-science-pack" % pack for pack in PACKS] else 0
            lines.append(" g%d: %s = %s" % (g, " ".join(terms), number(want)))
        return "\n".join(lines + ["end", ""])


def cost_of(pattern, said, printed):
    """The cost that a program printed, which must be glpsol's where that is there."""
    cost = re.search(pattern, said, re.M)
    if not cost:
        sys.exit(said)
    if printed and not agree(cost.group(1), printed):
        sys.exit("the costs differ: %s and %s" % (cost.group(1), printed))
    return cost.group(1)


def main() -> None:
    options = argparse.ArgumentParser(description=__doc__, formatter_class=argparse.RawDescriptionHelpFormatter)
    options.add_argument("--rounds", type=int, default=45)
    options.add_argument("--program")
    given = options.parse_args()
    science = Science(json.loads(DUMP.read_text()))
    planner, solver = given.program or programs.program(), programs.built("solve_tables")
    script, empty = programs.written("science.txt", science.script()), programs.written("empty.txt", "")
    table, linear = programs.written("table.txt", science.linear_table()), programs.written(
        "science.lp", science.linear_program()
    )
    printed = None
    if shutil.which("glpsol"):
        result = programs.scratch() / "result.txt"
        programs.well(["glpsol", "--exact", "--lp", linear, "-o", result])
        printed = re.search(r"Objective:\s+cost = (\S+)", result.read_text()).group(1)
    plans, loads, linears, theirs = [], [], [], [[] for _ in PEERS]
    for _ in range(given.rounds):
        plans.append(programs.well([planner, "run", DUMP, script]))
        loads.append(programs.well([planner, "run", DUMP, empty]))
        linears.append(programs.well([solver, "time"], table))
        for (_, words), runs in zip(PEERS, theirs if printed else []):
            runs.append(programs.well(["glpsol", *words, "--lp", linear]))
    cost = cost_of(r"^\d+ plan science cost (\S+)", plans[-1].said, printed)
    cost_of(r"^plan (\S+)", linears[-1].said, printed)
    print("%d rows, %d goods, cost %s" % (len(science.rows), len(science.goods()), cost))
    beyond = [plan.seconds - load.seconds for plan, load in zip(plans, loads)]
    for what, ours, holds in [
        ("in its linear form", [ran.seconds for ran in linears], "a whole process, which reads the table, as ours"),
        (
            "as rows of a script, without the reading of the dump",
            beyond,
            "a whole process, which reads the table in its linear form",
        ),
    ]:
        what = "the science of the example's game, %d rows, %s" % (len(science.rows), what)
        if not printed:
            tell(without_peer(what, [min(ours)], "glpk-utils"))
        for (name, _), runs in zip(PEERS, theirs if printed else []):
            figure = beside(what, [min(ours)], name, [programs.least(runs)], holds)
            tell(figure._replace(ratio=ratio(median(our / ran.seconds for our, ran in zip(ours, runs)))))


if __name__ == "__main__":
    main()
