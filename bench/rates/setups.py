"""Writes a table of set-ups of Factorio 1.1 with the effects on the machine and the rates of one craft a second.

The formulas are those of the Factorio Wiki (crafting speed, modules, beacons, pollution), worked out by Python's fractions.
Nothing here is shared with the planner. Each line has these words:

    label, base productivity,
    hundredths of the modules: speed, productivity, consumption, pollution,
    what beacons add: speed, productivity, consumption, pollution,
    seconds of a craft, speed, usage in watts, effectivity and fuel value in joules (0 0 without a burner),
    pollution a minute, the recipe's multiplier, the fuel's multiplier,
    then the answers: speed, productivity, consumption, pollution, machines, use in watts, fuel, pollution a minute.
"""
from fractions import Fraction as F

# module: speed, productivity, consumption, pollution in hundredths
MODULES = {
    "speed1": (20, 0, 50, 0),
    "speed2": (30, 0, 60, 0),
    "speed3": (50, 0, 70, 0),
    "productivity1": (-5, 4, 40, 5),
    "productivity2": (-10, 6, 60, 7),
    "productivity3": (-15, 10, 80, 10),
    "efficiency1": (0, 0, -30, 0),
    "efficiency2": (0, 0, -40, 0),
    "efficiency3": (0, 0, -50, 0),
}
# machine: speed, usage in watts, pollution a minute, effectivity of a burner, slots
MACHINES = {
    "assembling-machine-1": (F(1, 2), 75_000, 4, None, 0),
    "assembling-machine-2": (F(3, 4), 150_000, 3, None, 2),
    "assembling-machine-3": (F(5, 4), 375_000, 2, None, 4),
    "burner-mining-drill": (F(1, 4), 150_000, 10, F(1), 0),
    "electric-mining-drill": (F(1, 2), 90_000, 10, None, 3),
    "stone-furnace": (F(1), 90_000, 2, F(1), 0),
    "steel-furnace": (F(2), 90_000, 4, F(1), 0),
    "electric-furnace": (F(2), 180_000, 1, None, 2),
    "chemical-plant": (F(1), 210_000, 4, None, 3),
}
# fuel: joules, pollution multiplier
FUELS = {
    "wood": (2_000_000, F(1)),
    "coal": (4_000_000, F(1)),
    "solid-fuel": (12_000_000, F(1)),
    "rocket-fuel": (100_000_000, F(1)),
    "nuclear-fuel": (1_210_000_000, F(1)),
}

SETUPS = [
    # machine, seconds, fuel, modules, beacons with two modules each and effectivity 1/2
    ("assembling-machine-1", F(1, 2), None, [], []),
    ("assembling-machine-1", F(10), None, [], []),
    ("assembling-machine-2", F(1, 2), None, [], []),
    ("assembling-machine-2", F(6), None, ["speed1"] * 2, []),
    ("assembling-machine-2", F(6), None, ["speed2"] * 2, []),
    ("assembling-machine-2", F(6), None, ["productivity1"] * 2, []),
    ("assembling-machine-2", F(24), None, ["productivity2"] * 2, []),
    ("assembling-machine-2", F(24), None, ["efficiency1"] * 2, []),
    ("assembling-machine-2", F(24), None, ["efficiency3"] * 2, []),
    ("assembling-machine-2", F(24), None, ["productivity3", "efficiency1"], []),
    ("assembling-machine-3", F(1, 2), None, [], []),
    ("assembling-machine-3", F(8), None, ["speed1"] * 4, []),
    ("assembling-machine-3", F(8), None, ["speed2"] * 4, []),
    ("assembling-machine-3", F(8), None, ["speed3"] * 4, []),
    ("assembling-machine-3", F(15), None, ["productivity1"] * 4, []),
    ("assembling-machine-3", F(15), None, ["productivity2"] * 4, []),
    ("assembling-machine-3", F(15), None, ["productivity3"] * 4, []),
    ("assembling-machine-3", F(15), None, ["productivity3"] * 4, [("speed3", 8)]),
    ("assembling-machine-3", F(15), None, ["productivity3"] * 4, [("speed3", 12)]),
    ("assembling-machine-3", F(15), None, ["productivity3"] * 4, [("speed1", 8)]),
    ("assembling-machine-3", F(15), None, ["efficiency1"] * 4, []),
    ("assembling-machine-3", F(15), None, ["efficiency3"] * 4, [("efficiency3", 8)]),
    ("assembling-machine-3", F(30), None, ["productivity3"] * 3 + ["speed3"], [("speed2", 5), ("efficiency2", 3)]),
    ("burner-mining-drill", F(1), "wood", [], []),
    ("burner-mining-drill", F(1), "coal", [], []),
    ("burner-mining-drill", F(1), "solid-fuel", [], []),
    ("electric-mining-drill", F(1), None, [], []),
    ("electric-mining-drill", F(2), None, [], []),
    ("electric-mining-drill", F(1), None, ["speed1"] * 3, []),
    ("electric-mining-drill", F(1), None, ["speed3"] * 3, []),
    ("electric-mining-drill", F(1), None, ["productivity1"] * 3, []),
    ("electric-mining-drill", F(1), None, ["productivity3"] * 3, []),
    ("electric-mining-drill", F(1), None, ["efficiency1"] * 3, []),
    ("electric-mining-drill", F(1), None, [], [("speed1", 4)]),
    ("electric-mining-drill", F(2), None, ["productivity2"] * 2 + ["efficiency3"], [("speed3", 6)]),
    ("stone-furnace", F(16, 5), "wood", [], []),
    ("stone-furnace", F(16, 5), "coal", [], []),
    ("stone-furnace", F(16), "coal", [], []),
    ("steel-furnace", F(16, 5), "coal", [], []),
    ("steel-furnace", F(16), "solid-fuel", [], []),
    ("steel-furnace", F(16), "rocket-fuel", [], []),
    ("steel-furnace", F(16), "nuclear-fuel", [], []),
    ("electric-furnace", F(16, 5), None, [], []),
    ("electric-furnace", F(16, 5), None, ["speed2"] * 2, []),
    ("electric-furnace", F(16, 5), None, ["productivity3"] * 2, [("speed3", 8)]),
    ("electric-furnace", F(16), None, ["efficiency2"] * 2, []),
    ("chemical-plant", F(1), None, [], []),
    ("chemical-plant", F(1), None, ["speed3"] * 3, []),
    ("chemical-plant", F(1), None, ["productivity3"] * 3, [("speed3", 8)]),
    ("chemical-plant", F(24), None, ["productivity1"] * 3, [("speed1", 3)]),
    ("chemical-plant", F(24), None, ["efficiency3"] * 2 + ["speed2"], []),
]


def line(machine, time, fuel, modules, beacons):
    speed, usage, emissions, effectivity, slots = MACHINES[machine]
    assert len(modules) <= slots
    hundredths = [sum(MODULES[m][k] for m in modules) for k in range(4)]
    shared = [sum((F(2 * MODULES[m][k] * count, 100) * F(1, 2) for m, count in beacons), F(0)) for k in range(4)]
    bonus = [F(h, 100) + s for h, s in zip(hundredths, shared)]
    effect = [max(1 + bonus[0], F(1, 5)), max(bonus[1], F(0)), max(1 + bonus[2], F(1, 5)), max(1 + bonus[3], F(1, 5))]
    machines = time / (speed * effect[0])
    use = usage * effect[2] * machines
    value, multiplier = FUELS[fuel] if fuel else (0, F(1))
    burnt = use / (effectivity * value) if fuel else F(0)
    pollution = emissions * effect[2] * effect[3] * multiplier * machines
    words = [
        machine,
        F(0),
        *hundredths,
        *shared,
        time,
        speed,
        usage,
        effectivity or 0,
        value,
        emissions,
        F(1),
        multiplier,
        *effect,
        machines,
        use,
        burnt,
        pollution,
    ]
    return " ".join(str(word) for word in words)


if __name__ == "__main__":
    for setup in SETUPS:
        print(line(*setup))
