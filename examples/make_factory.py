#!/usr/bin/env python3
"""Writes examples/factory.json: a dump with the recipes, machines and technologies of the plain game, without its pictures and sounds.

    make_factory.py [FOLDER] > factory.json      FOLDER holds the three tables; it is examples/factory where none is given

The tables beside this program (factory/recipes.txt, technologies.txt, items.txt) and the machines below were written down from what
players know of Factorio 1.1, as its wiki and the usual cheat sheets tell it; no file of the game was read. Left out is what no plan asks
for: most upgrades, all that is only for fights or for show, and nearly all fields of a prototype. tests/run_facts holds the numbers that
players know against what the program answers. For plans of your own game ask a dump of your own game.
"""
import json
import pathlib
import sys

A, L, M, C, P, U, S = (
    "automation-science-pack logistic-science-pack military-science-pack chemical-science-pack "
    "production-science-pack utility-science-pack space-science-pack"
).split()
PACKS = {"A": A, "L": L, "M": M, "C": C, "P": P, "U": U, "S": S}

# Name, default temperature in degrees, heat of a unit and degree; all of these go into barrels but steam.
FLUIDS = {
    "water": (15, "0.2KJ"),
    "steam": (15, "0.2KJ"),
    "crude-oil": (25, "0.1KJ"),
    "petroleum-gas": (25, "0.1KJ"),
    "light-oil": (25, "0.1KJ"),
    "heavy-oil": (25, "0.1KJ"),
    "lubricant": (25, "0.1KJ"),
    "sulfuric-acid": (25, "0.1KJ"),
}
FUELS = {
    "wood": ("chemical", "2MJ"),
    "wooden-chest": ("chemical", "4MJ"),
    "coal": ("chemical", "4MJ"),
    "solid-fuel": ("chemical", "12MJ"),
    "rocket-fuel": ("chemical", "100MJ"),
    "nuclear-fuel": ("chemical", "1.21GJ"),
    "uranium-fuel-cell": ("nuclear", "8GJ"),
}
# What a module adds: speed, productivity, consumption, pollution.
BONUSES = {
    "speed-module": (0.2, 0, 0.5, 0),
    "speed-module-2": (0.3, 0, 0.6, 0),
    "speed-module-3": (0.5, 0, 0.7, 0),
    "productivity-module": (-0.05, 0.04, 0.4, 0.05),
    "productivity-module-2": (-0.1, 0.06, 0.6, 0.07),
    "productivity-module-3": (-0.15, 0.1, 0.8, 0.1),
    "effectivity-module": (0, 0, -0.3, 0),
    "effectivity-module-2": (0, 0, -0.4, 0),
    "effectivity-module-3": (0, 0, -0.5, 0),
}
# The recipes that take productivity modules: all that make what is only made to make something else.
INTERMEDIATE = """iron-plate copper-plate stone-brick steel-plate iron-gear-wheel iron-stick copper-cable electronic-circuit
advanced-circuit processing-unit engine-unit electric-engine-unit flying-robot-frame battery plastic-bar sulfur sulfuric-acid
lubricant explosives solid-fuel-from-light-oil solid-fuel-from-heavy-oil solid-fuel-from-petroleum-gas basic-oil-processing
advanced-oil-processing heavy-oil-cracking light-oil-cracking coal-liquefaction rocket-fuel low-density-structure
rocket-control-unit rocket-part automation-science-pack logistic-science-pack military-science-pack chemical-science-pack
production-science-pack utility-science-pack uranium-processing uranium-fuel-cell nuclear-fuel nuclear-fuel-reprocessing
kovarex-enrichment-process empty-barrel""".split()
# What comes back from a launch of an item.
LAUNCHES = {"satellite": [S, 1000], S: ["raw-fish", 100]}
# Which section an item stands in, where it isn't `item`.
SECTIONS = {
    "rail": "rail-planner",
    "repair-pack": "repair-tool",
    "raw-fish": "capsule",
    "cliff-explosives": "capsule",
    "discharge-defense-remote": "capsule",
    "artillery-targeting-remote": "capsule",
    "spidertron-remote": "spidertron-remote",
    "red-wire": "item",
    "green-wire": "item",
}
BY_SUBGROUP = {"gun": "gun", "ammo": "ammo", "capsule": "capsule", "armor": "armor", "science-pack": "tool"}


def electric(pollution=0, **more):
    return dict({"type": "electric", "usage_priority": "secondary-input", "emissions_per_minute": pollution}, **more)


def burner(pollution, category="chemical"):
    return {"type": "burner", "fuel_category": category, "effectivity": 1, "emissions_per_minute": pollution}


def slots(count, *effects):
    return {"module_specification": {"module_slots": count}, "allowed_effects": list(effects)}


ALL = ("consumption", "speed", "productivity", "pollution")
ASSEMBLES = ["crafting", "basic-crafting", "advanced-crafting"]
MACHINES = {
    "furnace": {
        "stone-furnace": dict(
            crafting_speed=1, crafting_categories=["smelting"], energy_usage="90kW", energy_source=burner(2)
        ),
        "steel-furnace": dict(
            crafting_speed=2, crafting_categories=["smelting"], energy_usage="90kW", energy_source=burner(4)
        ),
        "electric-furnace": dict(
            crafting_speed=2,
            crafting_categories=["smelting"],
            energy_usage="180kW",
            energy_source=electric(1),
            **slots(2, *ALL),
        ),
    },
    "assembling-machine": {
        "assembling-machine-1": dict(
            crafting_speed=0.5, crafting_categories=ASSEMBLES, energy_usage="75kW", energy_source=electric(4)
        ),
        "assembling-machine-2": dict(
            crafting_speed=0.75,
            crafting_categories=ASSEMBLES + ["crafting-with-fluid"],
            energy_usage="150kW",
            energy_source=electric(3),
            **slots(2, *ALL),
        ),
        "assembling-machine-3": dict(
            crafting_speed=1.25,
            crafting_categories=ASSEMBLES + ["crafting-with-fluid"],
            energy_usage="375kW",
            energy_source=electric(2),
            **slots(4, *ALL),
        ),
        "chemical-plant": dict(
            crafting_speed=1,
            crafting_categories=["chemistry"],
            energy_usage="210kW",
            energy_source=electric(4),
            **slots(3, *ALL),
        ),
        "oil-refinery": dict(
            crafting_speed=1,
            crafting_categories=["oil-processing"],
            energy_usage="420kW",
            energy_source=electric(6),
            **slots(3, *ALL),
        ),
        "centrifuge": dict(
            crafting_speed=1,
            crafting_categories=["centrifuging"],
            energy_usage="350kW",
            energy_source=electric(4),
            **slots(2, *ALL),
        ),
    },
    "rocket-silo": {
        "rocket-silo": dict(
            crafting_speed=1,
            crafting_categories=["rocket-building"],
            energy_usage="250kW",
            energy_source=electric(0),
            fixed_recipe="rocket-part",
            rocket_parts_required=100,
            **slots(4, *ALL),
        ),
    },
    "mining-drill": {
        "burner-mining-drill": dict(
            mining_speed=0.25, resource_categories=["basic-solid"], energy_usage="150kW", energy_source=burner(12)
        ),
        "electric-mining-drill": dict(
            mining_speed=0.5,
            resource_categories=["basic-solid"],
            energy_usage="90kW",
            energy_source=electric(10),
            input_fluid_box={"production_type": "input-output"},
            module_specification={"module_slots": 3},
        ),
        "pumpjack": dict(
            mining_speed=1,
            resource_categories=["basic-fluid"],
            energy_usage="90kW",
            energy_source=electric(10),
            module_specification={"module_slots": 2},
        ),
    },
    "offshore-pump": {"offshore-pump": dict(fluid="water", pumping_speed=20)},
    "boiler": {
        "boiler": dict(
            mode="output-to-separate-pipe",
            target_temperature=165,
            energy_consumption="1.8MW",
            fluid_box={"filter": "water"},
            output_fluid_box={"filter": "steam"},
            energy_source=burner(30),
        ),
        "heat-exchanger": dict(
            mode="output-to-separate-pipe",
            target_temperature=500,
            energy_consumption="10MW",
            fluid_box={"filter": "water"},
            output_fluid_box={"filter": "steam"},
            energy_source={"type": "heat"},
        ),
    },
    "generator": {
        "steam-engine": dict(
            effectivity=1, fluid_usage_per_tick=0.5, maximum_temperature=165, fluid_box={"filter": "steam"}
        ),
        "steam-turbine": dict(
            effectivity=1, fluid_usage_per_tick=1, maximum_temperature=500, fluid_box={"filter": "steam"}
        ),
    },
    "solar-panel": {"solar-panel": dict(production="60kW")},
    "reactor": {"nuclear-reactor": dict(consumption="40MW", energy_source=burner(0, "nuclear"))},
    "lab": {
        "lab": dict(
            inputs=[A, L, M, C, P, U, S],
            researching_speed=1,
            energy_usage="60kW",
            energy_source=electric(),
            module_specification={"module_slots": 2},
        )
    },
    "beacon": {
        "beacon": dict(
            distribution_effectivity=0.5,
            energy_usage="480kW",
            energy_source=electric(),
            **slots(2, "consumption", "speed", "pollution"),
        )
    },
    # Tiles a tick; at eight items a tile and 60 ticks a second 15, 30 and 45 items a second.
    "transport-belt": {
        "transport-belt": dict(speed=0.03125),
        "fast-transport-belt": dict(speed=0.0625),
        "express-transport-belt": dict(speed=0.09375),
    },
}


def table(folder, name):
    """The lines of a table, each as its parts."""
    for line in (folder / name).read_text(encoding="utf-8").splitlines():
        if line.strip() and not line.startswith("#"):
            yield [part.strip() for part in line.split("|")]


def number(text):
    return float(text) if "." in text else int(text)


def name_of(word):
    return word.lstrip("~").partition("*")[0]


def ingredient(word):
    """NAME*COUNT, of a fluid ~NAME*COUNT."""
    amount = number(word.partition("*")[2] or "1")
    if word.startswith("~"):
        return {"type": "fluid", "name": name_of(word), "amount": amount}
    return [name_of(word), amount]


def product(word):
    """NAME*COUNT, then /CATALYST or @PROBABILITY."""
    count, _, chance = word.partition("*")[2].partition("@")
    count, _, catalyst = count.partition("/")
    made = {"type": "fluid" if word.startswith("~") else "item", "name": name_of(word), "amount": number(count or "1")}
    if chance:
        made["probability"] = number(chance)
    if catalyst:
        made["catalyst_amount"] = number(catalyst)
    return made


def recipe(category, seconds, ingredients, products, unlocked):
    made = {
        "category": category,
        "energy_required": number(seconds),
        "ingredients": [ingredient(w) for w in ingredients.split()],
    }
    if unlocked:
        made["enabled"] = False
    products = [product(w) for w in products.split()]
    if len(products) == 1 and set(products[0]) == {"type", "name", "amount"} and products[0]["type"] == "item":
        made["result"] = products[0]["name"]
        if products[0]["amount"] != 1:
            made["result_count"] = products[0]["amount"]
    else:
        made["results"] = products
    return made


def recipes_of(folder):
    """The recipes, and the names of those that each technology unlocks."""
    rows = list(table(folder, "recipes.txt"))
    for fluid in FLUIDS:
        if fluid != "steam":
            barrel, full = fluid + "-barrel", "~%s*50" % fluid
            rows.append(
                ["fill-" + barrel, "crafting-with-fluid", "0.2", full + " empty-barrel", barrel, "fluid-handling"]
            )
            rows.append(
                ["empty-" + barrel, "crafting-with-fluid", "0.2", barrel, full + " empty-barrel", "fluid-handling"]
            )
    recipes, unlocks = {}, {}
    for name, category, seconds, ingredients, products, tech in rows:
        recipes[name] = recipe(category, seconds, ingredients, products, tech)
        if tech:
            unlocks.setdefault(tech, []).append(name)
    return recipes, unlocks


def goods_of(made):
    """The items that a recipe takes and gives."""
    for part in made["ingredients"] + made.get("results", [made.get("result")]):
        name, is_fluid = (
            (part["name"], part["type"] == "fluid")
            if isinstance(part, dict)
            else (part if isinstance(part, str) else part[0], False)
        )
        if not is_fluid:
            yield name


def items_of(folder, recipes):
    """Each section of items, and the groups in which the game shows them."""
    machines = {name for section in MACHINES.values() for name in section}
    groups, subgroups, sections = {}, {}, {}
    rows = list(table(folder, "items.txt"))
    rows.append(["intermediate-products fill-barrel", "10", " ".join(f + "-barrel" for f in FLUIDS if f != "steam")])
    for place, (where, stack, names) in enumerate(rows):
        group, subgroup = where.split()
        groups.setdefault(group, {"order": "abcd"[len(groups) % 4]})
        subgroups.setdefault(subgroup, {"group": group, "order": "%02d" % place})
        for at, item in enumerate(names.split()):
            section = SECTIONS.get(item) or BY_SUBGROUP.get(subgroup) or ("module" if item in BONUSES else "item")
            made = {"stack_size": int(stack), "subgroup": subgroup, "order": "%02d-%02d" % (place, at)}
            if item in machines:
                made["place_result"] = item
            if item in FUELS:
                made["fuel_category"], made["fuel_value"] = FUELS[item]
            if item == "uranium-fuel-cell":
                made["burnt_result"] = "used-up-uranium-fuel-cell"
            if item in LAUNCHES:
                made["rocket_launch_product"] = LAUNCHES[item]
            if item in BONUSES:
                kinds = zip(("speed", "productivity", "consumption", "pollution"), BONUSES[item])
                made["effect"] = {kind: {"bonus": bonus} for kind, bonus in kinds if bonus}
                if item.startswith("productivity"):
                    made["limitation"] = INTERMEDIATE
            sections.setdefault(section, {})[item] = made
    known = {name for section in sections.values() for name in section}
    missing = {name for made in recipes.values() for name in goods_of(made)} - known
    assert not missing, missing
    return sections, {"item-group": groups, "item-subgroup": subgroups}


def technologies_of(folder, unlocks):
    techs = {}
    for name, prerequisites, packs, count, seconds in table(folder, "technologies.txt"):
        unit = {"time": int(seconds), "ingredients": [[PACKS[p], 1] for p in packs.split()]}
        unit.update({"count_formula": "2500*(L - 3)"} if count == "-" else {"count": int(count)})
        techs[name] = {
            "prerequisites": prerequisites.split(),
            "effects": [{"type": "unlock-recipe", "recipe": r} for r in unlocks.pop(name, [])],
            "unit": unit,
        }
    assert not unlocks, unlocks
    return techs


def ore(seconds=1, **more):
    return {"autoplace": {"order": "b"}, "minable": dict({"mining_time": seconds}, **more)}


def mined():
    """What lies, grows and swims on the map."""
    resources = {name: ore(result=name) for name in ("iron-ore", "copper-ore", "coal", "stone")}
    resources["uranium-ore"] = ore(2, result="uranium-ore", required_fluid="sulfuric-acid", fluid_amount=10)
    resources["crude-oil"] = dict(
        ore(results=[{"type": "fluid", "name": "crude-oil", "amount_min": 10, "amount_max": 10}]),
        category="basic-fluid",
    )
    rock = [{"name": "stone", "amount_min": 20, "amount_max": 20}]
    huge = [{"name": "stone", "amount_min": 24, "amount_max": 50}, {"name": "coal", "amount_min": 24, "amount_max": 50}]
    return {
        "resource": resources,
        "tree": {"tree-01": {"autoplace": {}, "minable": {"mining_time": 0.5, "result": "wood", "count": 4}}},
        "simple-entity": {
            "rock-big": {"autoplace": {}, "minable": {"mining_time": 2, "results": rock}},
            "rock-huge": {"autoplace": {}, "minable": {"mining_time": 3, "results": huge}},
        },
        "fish": {"fish": {"autoplace": {}, "minable": {"mining_time": 0.4, "result": "raw-fish", "count": 5}}},
    }


def build(folder):
    recipes, unlocks = recipes_of(folder)
    dump, groups = items_of(folder, recipes)
    dump["fluid"] = {name: {"default_temperature": t, "heat_capacity": heat} for name, (t, heat) in FLUIDS.items()}
    dump["recipe"] = recipes
    dump.update(mined())
    dump.update(MACHINES)
    dump["character"] = {"character": {"crafting_categories": ["crafting"], "mining_categories": ["basic-solid"]}}
    dump["technology"] = technologies_of(folder, unlocks)
    dump.update(groups)
    for section, prototypes in dump.items():
        for name in prototypes:
            prototypes[name] = dict({"type": section, "name": name}, **prototypes[name])
    return dump


def main():
    folder = pathlib.Path(sys.argv[1]) if len(sys.argv) > 1 else pathlib.Path(__file__).resolve().parent / "factory"
    sections = []
    for section, prototypes in build(folder).items():
        lines = ",\n".join(
            "    %s: %s" % (json.dumps(n), json.dumps(p, separators=(",", ":"))) for n, p in prototypes.items()
        )
        sections.append("  %s: {\n%s\n  }" % (json.dumps(section), lines))
    sys.stdout.write("{\n%s\n}\n" % ",\n".join(sections))


if __name__ == "__main__":
    main()
