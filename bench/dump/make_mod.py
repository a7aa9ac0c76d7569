#!/usr/bin/env python3
"""A made-up overhaul mod, and a script of edits and questions about it, for the benches.

    make_mod.py OUT [--megabytes M] [--share S] [--script FILE [--lines N]]

Its goods stand in the order in which they can be made: the first are mined, each other one has a recipe that takes goods before it, and a
good many have further recipes. A tier of them ends with its science pack, which the technologies need that unlock the recipes of the next.
So what is barred low moves the ranks of much above it. Ten tiers of 5,820 goods, 9,500 recipes, 900 machines and 1,350 technologies (a
SHARE of these, all by default), filled up to M megabytes (120 by default; 0 for no filling). The script of N lines has a milestone for each
pack and then marks and recipes switched on or off, each undone, among questions. The same words give the same files.
"""
import argparse
import random
from itertools import islice
from typing import Dict, Iterator, List, Tuple

from make_dump import write_filled

TIERS = 10
GOODS, SOURCES, RECIPES, MACHINES, TECHNOLOGIES = 5_820, 90, 9_500, 900, 1_350
# One good in so many is a fluid. There are so many lines of production, each of goods of its own; a recipe mostly takes of the last NEAR goods of
# its line. So many machines are of one category, and a recipe is crafted by one of so many of the last categories.
FLUIDS, BRANCHES, NEAR, FAMILY, FAMILIES = 9, 12, 8, 4, 30


class Mod:
    """The game. Goods, machines and technologies are numbered in the order in which they can be reached; a good's number is its place."""

    def __init__(self, share: float) -> None:
        def count(whole: int, least: int) -> int:
            return max(least, int(whole * share))

        self.random = random.Random("mod %g" % share)
        goods, self.sources, recipes = count(GOODS, 400), count(SOURCES, 5), count(RECIPES, 600)
        self.tier_length = goods // TIERS
        self.packs = ["pack-%d" % tier for tier in range(TIERS)]
        self.goods = [self.name_of_good(place) for place in range(goods)]
        items = [place for place in range(self.sources, goods) if self.goods[place].startswith("item")]
        machines = count(MACHINES, 8)
        self.machine_items = [items[number * len(items) // machines] for number in range(machines)]
        self.of_tier: List[List[dict]] = [[] for _ in range(TIERS)]
        self.technologies = [
            self.technology(number, 1 + number * (TIERS - 1) // count(TECHNOLOGIES, TIERS))
            for number in range(count(TECHNOLOGIES, TIERS))
        ]
        self.recipes: Dict[str, dict] = {}
        for place in range(self.sources, goods):
            self.add_recipe("recipe-%d" % place, place, place)
        for number in range(goods - self.sources, recipes):
            self.add_recipe(
                "way-%d" % number,
                self.random.randrange(self.sources, goods),
                self.random.randrange(self.sources + 1, goods),
            )

    def name_of_good(self, place: int) -> str:
        tier, within = divmod(place, self.tier_length)
        if within == self.tier_length - 1 and tier < TIERS:
            return self.packs[tier]
        # (a fluid is never crafted by hand, as the first goods are)
        return "fluid-%d" % place if place > self.sources + 2 and place % FLUIDS == 0 else "item-%d" % place

    def tier(self, place: int) -> int:
        return min(TIERS - 1, place // self.tier_length)

    def part(self, place: int, amount: int) -> object:
        """An amount of a good, as an ingredient or a product."""
        name = self.goods[place]
        return {"type": "fluid", "name": name, "amount": 10 * amount} if name.startswith("fluid") else [name, amount]

    def before(self, place: int) -> int:
        """A good before a place: of the same line of production, or one that is mined."""
        r, earlier = self.random, (place - self.sources) // BRANCHES
        back = r.randint(1, max(1, min(NEAR, earlier) if r.random() < 0.7 else earlier))
        return place - back * BRANCHES if earlier and r.random() < 0.8 else r.randrange(min(place, self.sources))

    def category(self, place: int) -> str:
        """A category of which some machine stands before the place."""
        reached = sum(item < place - 1 for item in self.machine_items[::FAMILY])
        return "by-hand" if reached == 0 else "family-%d" % self.random.randrange(max(0, reached - FAMILIES), reached)

    def add_recipe(self, name: str, made: int, place: int) -> None:
        """A recipe for a good of what stands before a place, which the technologies of its tier unlock."""
        r, tier, category = self.random, self.tier(place), self.category(place)
        takes = sorted({self.before(place) for _ in range(r.randint(1, 5))} - {made})
        gives = (
            [made] if category == "by-hand" or r.random() < 0.75 else [made, r.randrange(self.sources, len(self.goods))]
        )
        self.recipes[name] = {
            "type": "recipe",
            "name": name,
            "category": category,
            "energy_required": r.randint(1, 240) / 8,
            "enabled": tier == 0,
            "ingredients": [self.part(good, r.randint(1, 12)) for good in takes],
            "results": [self.part(good, r.randint(1, 4)) for good in gives],
        }
        if tier > 0:
            r.choice(self.of_tier[tier])["effects"].append({"type": "unlock-recipe", "recipe": name})

    def technology(self, number: int, tier: int) -> dict:
        """A technology that needs the pack of the tier before its own, and mostly the earlier ones."""
        r = self.random
        packs = [pack for k, pack in enumerate(self.packs[:tier]) if k == tier - 1 or r.random() < 0.8]
        needs = sorted({r.randrange(max(0, number - 40), number) for _ in range(r.randint(0, 3))}) if number else []
        made = {
            "type": "technology",
            "prerequisites": ["technology-%d" % k for k in needs],
            "effects": [],
            "unit": {"count": 100, "time": 30, "ingredients": [[pack, 1] for pack in packs]},
        }
        self.of_tier[tier].append(made)
        return made

    def machine(self, number: int) -> Tuple[str, dict]:
        """The section of a machine, and the machine. The first needs no power, and those behind it give power and research."""
        if number == 1:
            return "solar-panel", {"production": "60kW"}
        if number == 2:
            return "lab", {"inputs": self.packs, "energy_usage": "60kW", "energy_source": {"type": "electric"}}
        r = self.random
        source = (
            r.choice([{"type": "electric", "emissions_per_minute": 2}, {"type": "burner", "fuel_category": "chemical"}])
            if number
            else {"type": "void"}
        )
        return "assembling-machine", {
            "crafting_speed": r.randint(1, 12) / 4,
            "crafting_categories": ["family-%d" % (number // FAMILY)],
            "energy_usage": "%dkW" % r.randint(50, 900),
            "energy_source": source,
            "module_specification": {"module_slots": r.randrange(5)},
            "allowed_effects": ["speed", "consumption", "pollution"],
        }

    def dump(self) -> dict:
        items = {
            good: {"stack_size": 50, "icon": "__mod__/graphics/icons/%s.png" % good}
            for good in self.goods
            if not good.startswith("fluid")
        }
        items[self.goods[0]].update(fuel_category="chemical", fuel_value="4MJ")
        made = {
            "character": {"character": {"crafting_categories": ["by-hand"], "mining_categories": ["basic-solid"]}},
            "item": items,
            "fluid": {good: {"default_temperature": 15} for good in self.goods if good.startswith("fluid")},
            "recipe": self.recipes,
            "resource": {
                "source-%d" % place: {"autoplace": {}, "minable": {"mining_time": 1, "result": self.goods[place]}}
                for place in range(self.sources)
            },
            "technology": {"technology-%d" % number: technology for number, technology in enumerate(self.technologies)},
        }
        for number, place in enumerate(self.machine_items):
            section, machine = self.machine(number)
            made.setdefault(section, {})["machine-%d" % number] = machine
            items[self.goods[place]]["place_result"] = "machine-%d" % number
        return made

    def script(self) -> Iterator[str]:
        """A milestone for each pack, and then marks, each undone, among questions, without an end."""
        r = random.Random("script")
        things = [
            ["item:" + good for good in self.goods if not good.startswith("fluid")],
            ["fluid:" + good for good in self.goods if good.startswith("fluid")],
            ["recipe:" + recipe for recipe in self.recipes],
            ["machine:machine-%d" % number for number in range(len(self.machine_items))],
            ["tech:technology-%d" % number for number in range(len(self.technologies))],
        ]

        def thing() -> str:
            return r.choice(r.choice(things))

        def switched() -> str:
            name = r.choice(list(self.recipes))
            return "enabled recipe:%s %s" % (name, "off" if self.recipes[name]["enabled"] else "on")

        yield from ("milestone item:" + pack for pack in self.packs)
        while True:
            kind = r.random()
            yield from (
                ["forbid " + thing(), "undo"]
                if kind < 0.07
                else ["forbid " + thing(), "reach " + thing(), "undo"]
                if kind < 0.1
                else ["grant " + thing(), "undo", "redo", "undo"]
                if kind < 0.13
                else [switched(), "undo"]
                if kind < 0.15
                else ["why " + thing()]
                if kind < 0.18
                else ["summary"]
                if kind < 0.23
                else ["%s %s" % (r.choice(["reach", "mask", "missing"]), thing())]
            )


def main() -> None:
    words = argparse.ArgumentParser(description=__doc__, formatter_class=argparse.RawDescriptionHelpFormatter)
    words.add_argument("out")
    words.add_argument("--megabytes", type=float, default=120)
    words.add_argument("--share", type=float, default=1)
    words.add_argument("--script")
    words.add_argument("--lines", type=int, default=1000)
    given = words.parse_args()
    mod = Mod(given.share)
    write_filled(given.out, mod.dump(), int(given.megabytes * 1e6), random.Random("tiles"))
    if given.script:
        with open(given.script, "w", encoding="utf-8") as out:
            out.writelines(line + "\n" for line in islice(mod.script(), given.lines))


if __name__ == "__main__":
    main()
