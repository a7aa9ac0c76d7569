"""What the page offers where there is no plan: for each good that can be wanted, for each way in which the solver stops, and where it
isn't the table that wants mending."""
import json
import os
import tempfile

from common import Bench, check, go_through

# What is offered where a table wants one unit of a good and has nothing else: for each good of the game.
OFFERED = """
const done = arguments[0];
(async () => {
  const [{ curesOfPlan }, { modelOf }, { planOf }, { S }, { game, isGood, kindOf }, { call }, { line }] = await Promise.all(
    ['cures', 'model', 'replies', 'state', 'game', 'calls', 'script'].map(n => import(`/${n}.js`)));
  const goods = game.ids.filter(id => isGood(id) || ['tech', 'fluid'].includes(kindOf(id)) || id === 'special:electricity'), out = [];
  for (let at = 0; at < goods.length; at += 50) {
    const some = goods.slice(at, at + 50), script = some.map((g, i) => `table t${i}\\n${line('want', 't' + i, g, '1')}\\n`).join('');
    const reply = await call('run', { file: S.file, script, version: null, ask: some.map((_, i) => `?flow t${i}`) }), model = modelOf(script);
    some.forEach((g, i) => {
      const { why, cures } = curesOfPlan(model.tables.get('t' + i), planOf(reply.answers[i]));
      out.push([g, why, cures.map(c => c.text)]);
    });
  }
  done(out);
})().catch(fault => done(String(fault)));
"""
# Rows whose prices are so wide that the solver stops, and all of one price once they are rounded.
WIDE = (
    "table t\n"
    + "".join(
        "row t r%d recipe:iron-gear-wheel by machine:assembling-machine-3\nprice t r%d %d/%d\n"
        % (k, k, 10**14 + 7 * k + 1, 10**14 - 11 * k - 3)
        for k in range(30)
    )
    + "want t item:iron-gear-wheel 12345678901234/98765432109877\nimport t item:iron-plate 31415926535897/27182818284591\n"
)
IRON = "table t\nrow t a recipe:iron-plate by machine:electric-furnace\nwant t item:iron-plate 1\nimport t item:iron-ore 1\n"


def proved(b):
    return "nothing is cheaper" in b.text(".proof")


def cures(program, make):
    b = make()
    try:
        go_through((every_good, step_by_step, stopped, broken, waiting, no_game), program, b)
    finally:
        b.it.quit()


def begin(b, bench):
    b.it.get(bench.url)
    b.settle()


def every_good(program, b):
    """Whatever is wanted, there is a word on it, and something to click."""
    with Bench(program) as bench:
        begin(b, bench)
        told = b.it.execute_async_script(OFFERED)
        bare = [it for it in told if not it[2] or not it[1]] if isinstance(told, list) else told
        check(
            "something is offered for each of the game's goods",
            isinstance(told, list) and len(told) > 300 and not bare,
            bare[:5],
        )
        offers = {good: offered for good, _, offered in told}
        check(
            "ore is mined, wood is brought in, research is done",
            offers["item:iron-ore"] == ["Mine Iron ore", "Bring in Iron ore"]
            and offers["fluid:crude-oil"] == ["Mine Crude oil", "Bring in Crude oil"]
            and offers["item:wood"] == ["Bring in Wood"]
            and offers["tech:optics"][0] == "Research Optics and what it takes"
            and "Bring in Optics" not in offers["tech:optics"],
            [offers[it] for it in ("item:iron-ore", "fluid:crude-oil", "item:wood", "tech:optics")],
        )


def step_by_step(program, b):
    """The first thing that is offered, again and again, leads to a plan."""
    for good, most in (
        ("tech:automation", 1),
        ("special:electricity", 1),
        ("fluid:steam", 2),
        ("item:uranium-235", 1),
        ("item:wood", 1),
        ("item:coal", 1),
    ):
        with Bench(program, text=("table t\nwant t %s 1\n" % good).encode()) as bench:
            begin(b, bench)
            steps = 0
            while b.find(".tip") and steps < 5:
                b.click(".tip")
                steps += 1
            check(
                "%s is planned by %d clicks" % (good, most),
                proved(b) and 1 <= steps <= most,
                (steps, b.text(".verdict")),
            )


def stopped(program, b):
    """Where the solver stops, what is offered helps it on."""
    with Bench(program, text=(IRON + "solve t 1\n").encode()) as bench:
        begin(b, bench)
        check(
            "a budget that is used up is told",
            "the budget of steps is used up" in b.text(".verdict"),
            b.text(".verdict"),
        )
        b.click(".tip", "100,000 steps")
        check("and with a greater one there is a plan", proved(b), b.text(".verdict"))
    with Bench(program, text=WIDE.encode()) as bench:
        begin(b, bench)
        check("numbers that grow too wide are told", "grew too wide" in b.text(".verdict"), b.text(".verdict"))
        b.click(".tip", "Round amounts and prices")
        check("and with round ones there is a plan", proved(b), b.text(".verdict"))


def broken(program, b):
    """An edit of the game takes from a table what it stood on."""
    with Bench(program, text=(IRON + "product recipe:iron-plate item:iron-plate drop\n").encode()) as bench:
        begin(b, bench)
        told = b.text(".verdict")
        check("a recipe that gives it no more is told", "Iron plate is needed and comes from nowhere" in told, told)
        b.click(".tip", "Bring in Iron plate")
        check("and one click mends it", proved(b), b.text(".verdict"))


def waiting(program, b):
    """An open batch is told, and ended by a click."""
    with Bench(program, text=(IRON + "batch\nwant t item:iron-plate 2\n").encode()) as bench:
        begin(b, bench)
        check("an open batch is told", "A batch is open" in b.text(".notice"), b.text("body"))
        count, nameless = b.nameless()
        check("its buttons have names", count > 10 and not nameless, nameless)
        b.click('[data-key="end batch"]')
        check(
            "and one click ends it",
            not b.find(".notice")
            and bench.saved().endswith(b"\nend\n")
            and b.one('[data-key="want item:iron-plate"]').get_attribute("value") == "120",
            bench.saved(),
        )
        b.click("#undo")
        b.click('[data-key="cancel batch"]')
        check(
            "or cancels it",
            not b.find(".notice") and b.one('[data-key="want item:iron-plate"]').get_attribute("value") == "60",
            bench.saved(),
        )


def no_game(program, b):
    """JSON that has nothing of the game is told."""
    with tempfile.TemporaryDirectory() as room:
        for name, dump in (("empty.json", {}), ("info.json", {"name": "my-mod"})):
            path = os.path.join(room, name)
            with open(path, "w") as file:
                json.dump(dump, file)
            with Bench(program, dump=path) as bench:
                begin(b, bench)
                check(
                    "%s is told to be no dump" % name,
                    "No section of Factorio 1.1 found in " + name in b.text(".notice"),
                    b.text("body"),
                )


PARTS = [cures]
