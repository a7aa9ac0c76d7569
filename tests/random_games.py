"""Random games of all kinds of machines, fluids by temperature, launches and research, and random lines about them.

tests/soak and tests/run_random are made of these. A game is told by its seed, and so is every line.
"""
import json
import random
import re
from fractions import Fraction
from typing import Dict, Iterator, List, Optional, Tuple

KINDS = "special item fluid recipe source machine tech".split()
CATEGORIES = ["c0", "c1", "c2"]


class Game:
    """A random game that a dump may tell: names of each kind, and the dump's sections."""

    def __init__(self, rng):
        self.rng = rng
        self.items = ["i%d" % k for k in range(rng.randint(4, 14))]
        self.fluids = ["f%d" % k for k in range(rng.randint(2, 4))]
        self.packs = rng.sample(self.items, 2)
        self.fuels = rng.sample(self.items, 2)
        self.modules = ["m0", "m1", "m2"]
        self.dump = {name: {} for name in ("item", "fluid", "module", "recipe", "resource", "technology")}
        for name in self.items:
            self.dump["item"][name] = {}
        for name in self.fuels:
            self.dump["item"][name].update(fuel_category="chemical", fuel_value="%dkJ" % rng.choice([500, 1000, 4000]))
        if rng.random() < 0.5:
            self.dump["item"][self.fuels[0]]["burnt_result"] = rng.choice(self.items)
        for name in self.fluids:
            self.dump["fluid"][name] = {"default_temperature": rng.choice([15, 25]), "heat_capacity": "0.2KJ"}
        self.dump["module"] = {
            "m0": {"effect": {"speed": {"bonus": 0.2}, "consumption": {"bonus": 0.5}}},
            "m1": {"effect": {"productivity": {"bonus": 0.1}, "speed": {"bonus": -0.15}}},
            "m2": {"effect": {"consumption": {"bonus": -0.3}, "pollution": {"bonus": 0.1}}},
        }
        self.make_machines()
        self.make_sources()
        self.make_recipes()
        self.make_technologies()

    def electric(self):
        return {"type": "electric", "emissions_per_minute": self.rng.choice([0, 1, 2.5])}

    def energy(self):
        if self.rng.random() < 0.3:
            return {"type": "burner", "fuel_category": "chemical", "emissions_per_minute": self.rng.choice([0, 4])}
        return self.electric()

    def placed(self, section, name, **fields):
        """A machine, and an item that is placed as it."""
        self.dump.setdefault(section, {})[name] = fields
        self.dump["item"]["of-" + name] = {"place_result": name}
        self.machines.append(name)

    def burns(self, machine):
        section = next(of for of in self.dump.values() if machine in of)
        return section[machine].get("energy_source", {}).get("type") == "burner"

    def make_machines(self):
        rng, self.machines = self.rng, []
        slots = {
            "module_specification": {"module_slots": 2},
            "allowed_effects": ["speed", "productivity", "consumption", "pollution"],
        }
        for k, category in enumerate(CATEGORIES):
            for fast in range(rng.randint(1, 2)):
                self.placed(
                    "assembling-machine",
                    "a%d%d" % (k, fast),
                    crafting_speed=rng.choice([0.5, 1, 1.25]),
                    crafting_categories=rng.sample(CATEGORIES, 2) + [category],
                    energy_usage="%dkW" % rng.choice([75, 150]),
                    energy_source=self.energy(),
                    **(slots if rng.random() < 0.7 else {}),
                )
        self.placed(
            "mining-drill",
            "drill",
            mining_speed=0.5,
            resource_categories=["basic-solid", "wells"],
            energy_usage="90kW",
            energy_source=self.energy(),
            input_fluid_box={},
            module_specification={"module_slots": 3},
        )
        self.placed("offshore-pump", "pump", fluid=self.fluids[0], pumping_speed=20)
        self.placed(
            "boiler",
            "boiler",
            mode="output-to-separate-pipe",
            target_temperature=165,
            energy_consumption="1.8MW",
            fluid_box={"filter": self.fluids[0]},
            output_fluid_box={"filter": self.fluids[1]},
            energy_source=self.energy(),
        )
        self.placed(
            "generator",
            "engine",
            effectivity=1,
            fluid_usage_per_tick=0.5,
            maximum_temperature=165,
            fluid_box={"filter": self.fluids[1]},
        )
        self.placed("solar-panel", "sun", production="60kW")
        self.placed(
            "lab",
            "lab",
            inputs=self.packs,
            researching_speed=1,
            energy_usage="60kW",
            energy_source=self.electric(),
            module_specification={"module_slots": 2},
        )
        self.placed(
            "beacon",
            "beacon",
            distribution_effectivity=0.5,
            energy_usage="480kW",
            energy_source=self.electric(),
            module_specification={"module_slots": 2},
            allowed_effects=["speed", "consumption", "pollution"],
        )
        self.placed(
            "rocket-silo",
            "silo",
            crafting_speed=1,
            crafting_categories=["rockets"],
            energy_usage="250kW",
            energy_source=self.electric(),
            fixed_recipe="part",
            rocket_parts_required=rng.choice([2, 100]),
            **slots,
        )
        self.dump["character"] = {
            "character": {
                "crafting_categories": rng.sample(CATEGORIES, rng.randint(1, 2)),
                "mining_categories": ["basic-solid"],
            }
        }

    def make_sources(self):
        rng = self.rng
        self.sources = []
        for k, item in enumerate(self.items[: rng.randint(2, 3)]):
            minable = {"mining_time": rng.choice([0.5, 1, 2]), "result": item}
            if k and rng.random() < 0.3:
                minable.update(required_fluid=rng.choice(self.fluids), fluid_amount=rng.choice([1, 10]))
            self.dump["resource"]["s%d" % k] = {"autoplace": {}, "minable": minable}
            self.sources.append("s%d" % k)
        self.dump["resource"]["well"] = {
            "autoplace": {},
            "category": "wells",
            "minable": {
                "mining_time": 1,
                "results": [
                    {
                        "type": "fluid",
                        "name": rng.choice(self.fluids),
                        "amount_min": 5,
                        "amount_max": rng.choice([5, 15]),
                    }
                ],
            },
        }
        self.sources.append("well")

    def part(self, is_product, most):
        """A part of a recipe, out of the first items."""
        rng = self.rng
        if rng.random() < 0.25 and most > 3:
            made = {"type": "fluid", "name": rng.choice(self.fluids), "amount": rng.choice([5, 10, 30])}
            if rng.random() < 0.3:
                made.update(
                    {"temperature": rng.choice([50, 165])}
                    if is_product
                    else {"minimum_temperature": 15, "maximum_temperature": 200}
                )
            return made
        made = {"type": "item", "name": rng.choice(self.items[:most]), "amount": rng.choice([1, 1, 2, 3, 5])}
        if is_product and rng.random() < 0.15:
            made["probability"] = rng.choice([0.25, 0.5])
        if is_product and rng.random() < 0.15:
            made["catalyst_amount"] = 1
        return made

    def parts(self, count, most, is_product=False):
        made = {}
        for _ in range(self.rng.randint(1, count)):
            part = self.part(is_product, most)
            made.setdefault(part["name"], part)
        return list(made.values())

    def make_recipes(self):
        rng, recipes = self.rng, self.dump["recipe"]
        for k in range(rng.randint(6, 20)):
            recipes["r%d" % k] = {
                "category": rng.choice(CATEGORIES),
                "energy_required": rng.choice([0.5, 1, 2, 3.2]),
                "ingredients": self.parts(3, k // 2 + 3),
                "results": self.parts(2, k // 2 + 5, True),
                "enabled": rng.random() < 0.7,
            }
        for k, name in enumerate(self.machines):
            recipes["build-" + name] = {
                "category": rng.choice(CATEGORIES),
                "ingredients": self.parts(2, 3),
                "result": "of-" + name,
            }
        for name in self.modules:
            recipes["make-" + name] = {
                "category": rng.choice(CATEGORIES),
                "ingredients": self.parts(2, 6),
                "result": name,
            }
        recipes["part"] = {
            "category": "rockets",
            "energy_required": 3,
            "ingredients": self.parts(2, 6),
            "result": self.items[0],
        }
        self.dump["item"][self.items[-1]]["rocket_launch_product"] = [rng.choice(self.items), rng.choice([1, 100])]
        self.recipes = list(recipes)

    def make_technologies(self):
        rng = self.rng
        locked = [name for name in self.recipes if not self.dump["recipe"][name].get("enabled", True)]
        self.techs = ["t%d" % k for k in range(rng.randint(1, 4))]
        for k, name in enumerate(self.techs):
            unlocks = [{"type": "unlock-recipe", "recipe": r} for r in locked if rng.random() < 0.6]
            self.dump["technology"][name] = {
                "prerequisites": self.techs[:k][-1:] if rng.random() < 0.5 else [],
                "effects": unlocks,
                "unit": {
                    "count": 10,
                    "time": rng.choice([5, 10]),
                    "ingredients": [[p, 1] for p in self.packs[: rng.randint(1, 2)]],
                },
            }

    def goods(self):
        return ["item:" + name for name in self.items] + ["fluid:" + name for name in self.fluids]

    def good(self):
        return (
            "item:" + self.rng.choice(self.items)
            if self.rng.random() < 0.75
            else "fluid:" + self.rng.choice(self.fluids)
        )

    def some_goods(self, most):
        """Different goods, so many at most."""
        return list(dict.fromkeys(self.good() for _ in range(most)))

    def node(self):
        kind, names = self.rng.choice(
            [
                ("item", self.items),
                ("fluid", self.fluids),
                ("recipe", self.recipes),
                ("source", self.sources),
                ("machine", self.machines),
                ("tech", self.techs),
            ]
        )
        return "%s:%s" % (kind, self.rng.choice(names))

    # ---- lines of a script
    def edit(self):
        rng = self.rng
        recipe = "recipe:" + rng.choice(self.recipes)
        return rng.choice(
            [
                lambda: "grant " + self.node(),
                lambda: "forbid " + self.node(),
                lambda: "milestone " + self.node(),
                lambda: "ingredient %s %s %s" % (recipe, self.good(), rng.choice(["1", "2", "5/3", "drop"])),
                lambda: "product %s %s %s" % (recipe, self.good(), rng.choice(["1", "3", "0.25", "drop"])),
                lambda: "time %s %s" % (recipe, rng.choice(["1", "1/3", "10"])),
                lambda: "enabled %s %s" % (recipe, rng.choice(["on", "off"])),
                lambda: "unlock tech:%s %s %s" % (rng.choice(self.techs), recipe, rng.choice(["on", "off"])),
            ]
        )()

    def row(self, table, number):
        rng = self.rng
        machine = rng.choice(self.machines)
        categories = self.dump["assembling-machine"].get(machine, {}).get("crafting_categories", CATEGORIES)
        recipe = rng.choice([r for r in self.recipes if self.dump["recipe"][r]["category"] in categories])
        does = {
            "drill": lambda: "source:" + rng.choice(self.sources),
            "pump": lambda: "fluid:" + self.fluids[0],
            "boiler": lambda: "fluid:%s@165" % self.fluids[1],
            "engine": lambda: "special:electricity",
            "sun": lambda: "special:electricity",
            "lab": lambda: "tech:" + rng.choice(self.techs),
            "silo": lambda: rng.choice(["recipe:part", "recipe:launch:silo:" + self.items[-1]]),
        }
        line = "row %s l%d %s by machine:%s" % (table, number, does.get(machine, lambda: "recipe:" + recipe)(), machine)
        if self.burns(machine) != (rng.random() < 0.1):
            line += " fuel item:" + rng.choice(self.fuels)
        if rng.random() < 0.3:
            line += " module item:%s 1" % rng.choice(self.modules)
        if rng.random() < 0.1:
            line += " beacon machine:beacon 2 1 in item:m0 1"
        if machine == "engine" or rng.random() < 0.15:
            line += " at fluid:%s@165" % self.fluids[1]
        return line

    def table_lines(self, table, most_rows=16):
        """The lines of a table: rows, and what may stand in any order behind them."""
        rng = self.rng
        count = rng.randint(min(4, most_rows), most_rows)
        rows = [self.row(table, k) for k in range(count)]
        behind = [
            "price %s l%d %s" % (table, k, rng.choice(["1", "1/2"])) for k in range(min(4, count)) if rng.random() < 0.3
        ]
        behind += [
            "want %s %s %s" % (table, good, rng.choice(["1", "3/4", "10"]))
            for good in self.some_goods(rng.randint(1, 2))
        ]
        behind += [
            "import %s %s %s" % (table, good, rng.choice(["1", "2", "1/10"]))
            for good in self.goods()
            if rng.random() < 0.7
        ]
        behind += ["surplus %s %s 0" % (table, good) for good in self.some_goods(4)]
        if rng.random() < 0.2:
            behind += ["power %s on" % table, "import %s special:electricity 1/1000000" % table]
        return rows, behind
