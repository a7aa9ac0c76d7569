#!/usr/bin/env python3
"""A large dump of machines, goods, recipes and technologies, for the benches.

    make_dump.py OUT [--nodes N] [--megabytes M] [--hub H]

N nodes (3 at least are the character, electricity and heat; 131,072 by default), filled up to M megabytes (268.4, the
limit, by default; 0 for no filling) with sections that no planner reads. With a hub, H of the recipes and H of the
machines share one category, so that the rows have H times H members more. The same words give the same dump. It has
no bare words, so that other readers take it too.
"""
import argparse
import json
import random

KINDS = {"item": 0.35, "fluid": 0.03, "recipe": 0.53, "machine": 0.027, "technology": 0.06}
CATEGORIES = 80


def part(r, goods):
    good = r.choice(goods)
    if good.startswith("fluid"):
        return {"type": "fluid", "name": good, "amount": r.randrange(1, 100)}
    return [good, r.randrange(1, 20)]


def recipe(r, n, goods, hub):
    made = {
        "type": "recipe",
        "name": "recipe-%d" % n,
        "icon": "__base__/graphics/icons/recipe-%d.png" % n,
        "icon_size": 64,
        "category": "hub" if n < hub else "category-%d" % r.randrange(CATEGORIES),
        "energy_required": r.randrange(1, 200) / 8,
        "enabled": r.random() < 0.8,
        "subgroup": "group-%d" % r.randrange(40),
        "ingredients": [part(r, goods) for _ in range(r.randrange(1, 6))],
    }
    results = []
    for _ in range(r.randrange(1, 4)):
        result = part(r, goods)
        if isinstance(result, list):
            result = {
                "name": result[0],
                "amount_min": 1,
                "amount_max": result[1],
                "probability": r.randrange(1, 20) / 20,
            }
        results.append(result)
    made["results"] = results
    return made


def first_recipe(n, item, mined):
    """By hand, of what is mined: with these the machines can be reached."""
    return {
        "type": "recipe",
        "category": "category-0",
        "energy_required": 0.5,
        "ingredients": [[mined, 1 + n % 9]],
        "result": item,
    }


def machine(r, n, hub):
    sources = [
        {"type": "electric", "emissions_per_minute": 3},
        {"type": "burner", "fuel_categories": ["chemical", "nuclear"]},
        {"type": "heat"},
        {"type": "fluid", "fluid_box": {}},
        {"type": "void"},
    ]
    categories = (["hub"] if n < hub else []) + ["category-%d" % r.randrange(CATEGORIES)]
    return {
        "type": "assembling-machine",
        "crafting_speed": r.randrange(1, 9) / 4,
        "crafting_categories": categories,
        "energy_usage": "%dkW" % r.randrange(1, 900),
        "energy_source": r.choice(sources[:2] if n % 7 else sources),
        "module_specification": {"module_slots": r.randrange(5)},
        "allowed_effects": ["speed", "consumption"],
        "collision_box": [[-1.2, -1.2], [1.2, 1.2]],
        "animation": {"layers": [{"filename": "m%d.png" % n, "width": 64}]},
    }


def technology(r, n, packs, recipes):
    return {
        "type": "technology",
        "prerequisites": ["technology-%d" % r.randrange(n) for _ in range(min(n, 2))],
        "unit": {"count": 100, "time": 30, "ingredients": [[pack, 1] for pack in r.sample(packs, 3)]},
        "effects": [{"type": "unlock-recipe", "recipe": "recipe-%d" % r.randrange(recipes)} for _ in range(4)],
    }


def tile(r, depth):
    """An expression of noise, which no reader of recipes wants."""
    if depth == 0 or r.random() < 0.2:
        return {"type": "literal-number", "literal_value": r.randrange(10_000) / 1000}
    return {
        "type": "function-application",
        "function_name": r.choice(["add", "clamp", "multiply"]),
        "arguments": [tile(r, depth - 1) for _ in range(r.randrange(1, 4))],
        "source_location": {
            "filename": "__base__/prototypes/noise \u2192 %d.lua" % r.randrange(50),
            "line_number": r.randrange(900),
        },
    }


def write_filled(path, dump, length, r):
    """Writes a dump, filled up to so many bytes with tiles that no planner reads, where it has fewer."""
    text = json.dumps(dump, separators=(",", ":"), ensure_ascii=False).encode()
    room = length - len(text) - len(',"tile":{}')
    with open(path, "wb") as out:
        out.write(text[:-1])
        if room > 0:
            out.write(b',"tile":{')
            n = 0
            while True:
                entry = b'%s"tile-%d":%s' % (
                    b"," if n else b"",
                    n,
                    json.dumps(tile(r, 7), separators=(",", ":"), ensure_ascii=False).encode(),
                )
                if len(entry) > room:
                    break
                out.write(entry)
                room -= len(entry)
                n += 1
            out.write(b"}" + b" " * room)
        out.write(b"}")


def main():
    words = argparse.ArgumentParser()
    words.add_argument("out")
    words.add_argument("--nodes", type=int, default=131_072)
    words.add_argument("--megabytes", type=float, default=268.435456)
    words.add_argument("--hub", type=int, default=0)
    given = words.parse_args()
    r = random.Random("dump %d %d" % (given.nodes, given.hub))
    counts = {kind: int((given.nodes - 3) * share) for kind, share in KINDS.items()}
    counts["source"] = given.nodes - 3 - sum(counts.values())
    items = ["item-%d" % n for n in range(counts["item"])]
    fluids = ["fluid-%d" % n for n in range(counts["fluid"])]
    goods, packs = items + fluids, items[:12]
    machines = ["machine-%d" % n for n in range(counts["machine"])]
    mined = min(counts["source"], len(items) - len(machines))
    lab = {"inputs": packs, "energy_usage": "60kW", "energy_source": {"type": "electric"}}
    dump = {
        "character": {
            "character": {"crafting_categories": ["category-0", "hub"], "mining_categories": ["basic-solid"]}
        },
        "item": {
            name: (
                {"place_result": machines[n]}
                if n < len(machines)
                else {"fuel_category": "chemical", "fuel_value": "%dMJ" % r.randrange(1, 9)}
                if n % 500 == 0
                else {"stack_size": 50, "icon": "__base__/graphics/icons/%s.png" % name}
            )
            for n, name in enumerate(items)
        },
        "fluid": {name: {"default_temperature": 15, "base_color": {"r": 0.1, "g": 0.5, "b": 0.9}} for name in fluids},
        "recipe": {
            "recipe-%d" % n: recipe(r, n, goods, given.hub)
            if n < given.hub or n >= given.hub + len(machines)
            else first_recipe(n, items[n - given.hub], items[-1 - n % mined])
            for n in range(counts["recipe"])
        },
        "resource": {
            "source-%d" % n: {"autoplace": {}, "minable": {"mining_time": 1, "result": items[-1 - n % mined]}}
            for n in range(counts["source"])
        },
        "assembling-machine": {name: machine(r, n, given.hub) for n, name in enumerate(machines[2:])},
        "solar-panel": {machines[1]: {"production": "60kW"}},
        "lab": {machines[0]: lab},
        "technology": {
            "technology-%d" % n: technology(r, n, packs, counts["recipe"]) for n in range(counts["technology"])
        },
    }
    write_filled(given.out, dump, int(given.megabytes * 1e6), r)


if __name__ == "__main__":
    main()
