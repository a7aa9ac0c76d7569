"""The way of a player through the workbench: a wish, a plan, changes, refusals and cures, what if, reload, conflict; and how all of it looks."""
import json
import os
import time

from selenium.webdriver.common.keys import Keys

from common import Bench, check, go_through, until

SIZES = [(1280, 900), (600, 900), (320, 700)]


def machines(b):
    return b.text(".kpi").split("\n")[0]


def proved(b):
    return "nothing is cheaper" in b.text(".proof")


def looked_at(b, name):
    """Contrast, names and signs of what is shown, in both themes and at three widths."""
    for theme in ("light", "dark"):
        for width, height in SIZES:
            b.size(width, height, theme)
            what = "%s, %s, %d pixels" % (name, theme, width)
            (seen, faint), overflow, spilt = b.contrast(), b.overflow(), b.spilt()
            check("%s: %d texts stand out 4.5 times" % (what, seen), seen > 10 and not faint, faint)
            check("%s: nothing is wider than the window" % what, overflow <= 0, overflow)
            check("%s: nothing is wider than its box" % what, not spilt, spilt)
    b.size(*SIZES[0], "light")
    count, nameless = b.nameless()
    check("%s: %d controls have a name" % (name, count), count > 10 and not nameless, nameless)
    check("%s: nothing is told by colour alone" % name, not b.told_by_colour(), b.told_by_colour())


def wish(b, bench):
    b.it.get(bench.url)
    b.settle()
    check("it begins with a wish", "What do you wish for?" in b.text("main"))
    check("the token isn't in the address", "#" not in b.it.current_url and bench.token not in b.it.current_url)
    b.write(".amount", "300")
    b.click("#good")
    b.one(".picker input").send_keys("circuit")
    b.shot("workbench-wish")
    looked_at(b, "list to choose from")
    b.one(".picker input").send_keys(Keys.ESCAPE)
    check("Escape closes the list, and the focus goes back", not b.find(".picker") and b.focus() == "good", b.focus())
    b.click("#good")
    b.pick("electronic circ")
    b.click("#make")
    check("the wish is a table with a plan", machines(b) == "25" and proved(b), b.text("main"))
    check("it is saved at once", b"want electronic-circuit item:electronic-circuit 5" in bench.saved(), bench.saved())
    check("the flow chart stands below", len(b.find("svg .card")) == 7 and "900" in b.text("svg .hub"), b.text("svg"))
    check("exact numbers on hover", "exactly 15/2" in b.it.page_source or "15/2 /s" in b.it.page_source)
    hubs = [it.get_attribute("aria-label") for it in b.find("svg .hub")]
    check(
        "belts and stacks beside each flow",
        "belt" in b.text(".side")
        and "stack" in b.text(".side")
        and len(hubs) == 6
        and all("belt" in it and "stack" in it for it in hubs)
        and b.text("svg .hub").count("stack") >= 6,
        (b.text(".side"), hubs),
    )
    b.shot("workbench-plan")


def changes(b, bench):
    before = bench.saved()
    b.click('[data-key="by electronic-circuit"]')
    check(
        "only machines that fit are offered",
        b.text(".picker").count("Assembling machine") == 3 and "furnace" not in b.text(".picker"),
        b.text(".picker"),
    )
    b.click(".option", "Assembling machine 1")
    check("another machine, another plan", machines(b) == "28", machines(b))
    check("the focus is where it was", b.focus() == "by electronic-circuit", b.focus())
    check(
        "its line is changed in its place",
        b"recipe:electronic-circuit by machine:assembling-machine-1" in bench.saved()
        and bench.saved().count(b"\n") == before.count(b"\n"),
        bench.saved(),
    )
    b.chord(Keys.CONTROL, "z")
    check("undo", machines(b) == "25" and bench.saved() == before)
    b.it.refresh()
    b.settle()
    check("after a reload all is as it was", machines(b) == "25" and bench.saved() == before)
    b.click("#redo")
    check("and what was undone can be done again", machines(b) == "28", machines(b))
    b.click("#undo")
    b.click('[data-key="slot0 iron-plate"]')
    b.pick("productivity module 3")
    check("modules fill the slots", b"module item:productivity-module-3 2" in bench.saved(), bench.saved())
    b.click('[data-key="beacon iron-plate"]')
    check("a form of beacons", b.focus() == "count", b.focus())
    looked_at(b, "form of beacons")
    fields = "[...document.querySelectorAll('.picker input, .picker select, .picker button')]"
    count, come_to = b.js("return %s.length" % fields), []
    for _ in range(count):
        come_to.append(b.js("return %s.indexOf(document.activeElement)" % fields))
        b.keys(Keys.TAB)
    check(
        "the Tab key goes round in a form",
        count > 3 and sorted(come_to) == list(range(count)) and b.focus() == "count",
        come_to,
    )
    b.click(".picker .main")
    check(
        "beacons",
        b"beacon machine:beacon 8 4 in" in bench.saved() and "Beacon" in b.text('[aria-label="To build"]'),
        bench.saved(),
    )
    b.click(".seg button", "/s")
    check("per second", "Crafts /s" in b.text("th"))
    b.click(".seg button", "/min")


def cures(b, bench):
    b.click('[aria-label="Iron ore no longer comes in"]')
    check(
        "no plan is told in words",
        "Iron ore is needed and comes from nowhere" in b.text(".verdict"),
        b.text(".verdict"),
    )
    b.shot("workbench-cure")
    looked_at(b, "no plan")
    reached(b, "no plan")
    folder = b.downloads
    found = lambda: [n for n in os.listdir(folder) if n.endswith(".certificate.json")]
    b.click('[data-key="proof"]')
    check(
        "that there is none is proved, too, and the mark gives the certificate",
        until(found, 20) and until(lambda: "proved 1 of 1" in b.said()),
        b.said(),
    )
    for name in found():
        with open(os.path.join(folder, name)) as file:
            check("and it has the prices", "infeasible" in json.load(file)["answers"][0])
        os.unlink(os.path.join(folder, name))
    b.click(".tip", "Bring in")
    check("and one click mends it", proved(b), b.text(".verdict"))
    b.click('[data-key="addwant"]')
    b.pick("iron gear")
    b.click(".tip", "Make Iron gear wheel")
    check(
        "one more good of the table",
        b"row electronic-circuit iron-gear-wheel recipe:iron-gear-wheel" in bench.saved() and proved(b),
        b.text(".verdict"),
    )
    b.write('[data-key="want item:iron-gear-wheel"]', "150", Keys.ENTER)
    check("so much of it, exactly", b"want electronic-circuit item:iron-gear-wheel 5/2" in bench.saved(), bench.saved())
    b.write('[data-key="want item:iron-gear-wheel"]', "x", Keys.ENTER)
    check(
        "what is no number is told, and not written",
        b.one('[data-key="want item:iron-gear-wheel"]').get_attribute("aria-invalid") == "true"
        and b"5/2" in bench.saved(),
    )
    b.write('[data-key="want item:iron-gear-wheel"]', "150", Keys.ENTER)
    b.click('[data-key="proof"]')
    check("the mark of the proof gives the certificate", until(lambda: found(), 20), os.listdir(folder))
    if found():
        with open(os.path.join(folder, found()[0])) as file:
            check("and it has the plan", any("plan" in a for a in json.load(file)["answers"]))
        check("and the checker's word", until(lambda: "proved" in b.said()), b.said())


def reached(b, name):
    """Whether the Tab key comes to each control that is seen."""
    count, missed = b.unreached()
    check("%s: the Tab key comes to all %d controls" % (name, count), count > 10 and not missed, missed)


def from_nothing(b, bench):
    """An empty table says how to go on, and comes to a plan by clicks; what is set in all rows stands where it fits."""
    before = bench.saved()
    b.click(".tab.quiet")
    check(
        "an empty table says how to go on",
        "Nothing is wanted yet" in b.text("main") and "proved" not in b.text("main"),
        b.text("main"),
    )
    looked_at(b, "empty table")
    b.click('[data-key="begin"]')
    b.pick("iron gear")
    check(
        "and what is wanted, where it isn't made",
        "Iron gear wheel is needed and comes from nowhere" in b.text(".verdict"),
        b.text(".verdict"),
    )
    b.click(".tip", "Make Iron gear wheel and what it takes")
    check("one click makes it, and what it takes", proved(b) and len(b.find(".rows tbody tr")) == 2, b.text("main"))
    b.click('[data-key="all by"]')
    b.pick("assembling machine 2")
    check(
        "a machine for all rows stands where it fits",
        bench.saved().count(b"recipe:iron-gear-wheel by machine:assembling-machine-2") == 1
        and bench.saved().count(b"by machine:electric-furnace") >= 1,
        bench.saved(),
    )
    rows = lambda: [line for line in bench.saved().split(b"\n") if line.startswith(b"row table-1 ")]
    b.click('[data-key="all modules"]')
    b.pick("speed module 3")
    check("modules for all rows, too", all(b" module item:speed-module-3 2" in line for line in rows()), rows())
    b.click('[data-key="all beacons"]')
    b.click(".picker .main")
    check(
        "and beacons",
        all(b" beacon machine:beacon 8 4 in item:speed-module-3 2" in line for line in rows()) and proved(b),
        rows(),
    )
    b.click(".flow summary")
    told = b.text(".list")
    b.click('[data-key="addwant"]')
    b.pick("iron plate")
    shared = [it.text for it in b.find(".list tbody tr") if "Iron plate" in it.text.split("\n")[1]]
    check(
        "where a good goes to several, each has its own flow, belts and stacks",
        len(shared) == 1
        and "wanted: " in shared[0]
        and "Iron gear wheel: " in shared[0]
        and shared[0].count("belt") == 3
        and shared[0].count("stack") == 3,
        shared,
    )
    b.click("#undo")
    looked_at(b, "list of flows")
    check(
        "all flows as a list, exactly",
        "Iron gear wheel" in told and "belt" in told and "stack" in told and "comes in" in told and "\t2" in told,
        told,
    )
    for _ in range(6):
        b.click("#undo")
    check("and six steps back it is as it was", bench.saved() == before, bench.saved())


def unmet(b, bench):
    """A wish that nothing meets is told in the names of the game, with what could be brought in instead."""
    before = bench.saved()
    b.click('[data-route="wish"]')
    b.click("#good")
    b.pick("electronic circ")
    b.click(".more summary")
    b.click('[data-key="wish without"]')
    b.pick("electronic circ")
    b.click("#make")
    told = b.text(".wish .verdict")
    check(
        "a wish that can't be met says why",
        "Electronic circuit can't be made" in told and "item:" not in told and "--import" not in told,
        told,
    )
    check("and what may be brought in", "Bring in instead of making" in told and bench.saved() == before, told)
    looked_at(b, "unmet wish")
    reached(b, "unmet wish")
    b.click('[aria-label="Avoid recipes: not Electronic circuit"]')
    b.click('[data-route="table:electronic-circuit"]')


def options(b, bench):
    """The options of a wish come to its lines: a second module, where the first isn't allowed, a price of what is brought in, the most rows."""
    before = bench.saved()
    b.click('[data-route="wish"]')
    b.click("#good")
    b.pick("inserter")
    b.click('[data-key="wish module"]')
    b.pick("productivity module 3")
    b.click('[data-key="wish other"]')
    b.pick("speed module 2")
    if not b.find(".more[open]"):
        b.click(".more summary")
    b.click('[data-key="wish imports"]')
    b.pick("iron plate")
    b.write('[data-key="wish price item:iron-plate"]', "7/2", Keys.ENTER)
    b.write('[data-key="wish rows"]', "2")
    b.click("#make")
    lines = bench.saved()[len(before) :]
    rows = [line for line in lines.split(b"\n") if line.startswith(b"row ")]
    check(
        "a second module where the first isn't allowed, a price, the most rows",
        len(rows) == 2
        and b"recipe:inserter by machine:assembling-machine-3 module item:speed-module-2 4" in lines
        and b"module item:productivity-module-3" in lines
        and b" item:iron-plate 7/2\n" in lines
        and proved(b),
        lines,
    )
    b.click("#undo")
    b.click('[data-route="wish"]')
    for key, none in (("module", "None"), ("other", None)):
        if none:
            b.click('[data-key="wish %s"]' % key)
            b.click(".option", none)
    if not b.find(".more[open]"):
        b.click(".more summary")
    b.click('[aria-label="Bring in: not Iron plate"]')
    b.write('[data-key="wish rows"]', "")
    check("and nothing is left of them", bench.saved() == before, bench.saved())
    b.click('[data-route="table:electronic-circuit"]')


def in_belts(b, bench):
    b.click('[data-route="wish"]')
    b.click("#good")
    b.pick("iron plate")
    b.js(
        "const s = document.querySelector('[data-key=\"wish unit\"]'); s.value = 'belts'; s.dispatchEvent(new Event('change'))"
    )
    b.write(".amount", "2")
    b.click("#make")
    check("a wish in belts", b"want iron-plate item:iron-plate 90\n" in bench.saved() and proved(b), b.text("main"))
    b.click("#undo")
    b.click('[data-route="table:electronic-circuit"]')


REFUSED = """
const [reply, done] = arguments;
Promise.all(['cures', 'replies', 'state'].map(n => import(`/${n}.js`))).then(([{ curesOfPlan }, { planOf }, { S }]) => {
  const table = [...S.model.tables.values()][0], { why, cures } = curesOfPlan(table, planOf(reply));
  done([why, ...cures.map(c => c.text)]);
}, fault => done([String(fault)]));
"""


def unsolved(b, bench):
    """What is offered where the solver stops, by the words of its reply."""
    for code, word in (("V1", "too wide"), ("V2", "budget")):
        trail = "  enter row iron-plate leave unit item:iron-plate\n  enter import item:copper-ore leave unit item:copper-cable\n"
        told = b.it.execute_async_script(
            REFUSED,
            "? refused %s electronic-circuit\n%s"
            % (
                code,
                trail + ("  next enter row copper-cable leave unit item:copper-cable\n  total" if code == "V1" else ""),
            ),
        )
        check(
            "a plan that is refused says why and what may help: " + code,
            word in told[0]
            and "Try the rows in the opposite order" in told
            and "Bring in Iron plate" in told
            and "Bring in Copper cable" in told,
            told,
        )
    for code, details, word in (("K4", " iron-plate 5", "too wide (row iron-plate)"), ("P3", "", "512")):
        told = b.it.execute_async_script(REFUSED, "? refused %s%s\n" % (code, details))
        check(
            "and so does one that a row is to blame for: " + code,
            word in told[0] and "Remove row iron-plate" in told,
            told,
        )


def exploring(b, bench):
    b.keys("/")
    b.pick("advanced circuit")
    check("a card", "Advanced circuit" in b.text("aside h2"), b.text("aside"))
    b.click("aside .quiet", "Show the steps")
    check("a way to it", until(lambda: len(b.find(".why li")) > 20), b.text(".why"))
    b.js("document.querySelector('#toasts button:last-child')?.click()")
    b.shot("workbench-card")
    b.click('[data-route="explore"]')
    b.write('[data-key="explore"]', "circ")
    check(
        "the explorer finds while one types",
        "Electronic circuit" in b.text(".tiles") and "Iron ore" not in b.text(".tiles"),
        b.text(".tiles"),
    )
    looked_at(b, "explorer and card")
    reached(b, "explorer and card")
    b.click('[data-route="what"]')
    b.click("#packs")
    check("milestones", bench.saved().count(b"\nmilestone item:") == 7, bench.saved())
    check(
        "what it hangs on", until(lambda: "Automation science pack" in b.text("aside .facts")), b.text("aside .facts")
    )
    b.click('[data-key="add forbid"]')
    b.pick("crude oil")
    check(
        "what is forbidden is lost",
        "Out of reach" in b.text("main") and "never" in b.text("aside .facts"),
        b.text("main"),
    )
    b.shot("workbench-whatif")
    looked_at(b, "what if")
    reached(b, "what if")
    b.click("#undo")
    check("and comes back", "Out of reach" not in b.text("main"))
    b.keys(Keys.ESCAPE)
    check("Escape closes the card", not b.find("aside"))


def refusals(b, bench):
    b.click("#script")
    area = b.one("textarea")
    area.send_keys(Keys.CONTROL, Keys.END)
    area.send_keys(
        "row electronic-circuit x recipe:plastic-bar by machine:lab\nmilestone item:automation-science-pakc\n"
    )
    b.settle()
    check(
        "a refused line is marked where it stands",
        "this machine doesn’t do that" in b.text(".marks") and b.text("#script").strip().endswith("2"),
        b.text(".marks"),
    )
    check("and what one types stays", area.get_attribute("value").endswith("science-pakc\n"))
    b.shot("workbench-script")
    looked_at(b, "script with refused lines")
    reached(b, "script with refused lines")
    b.click(".problem .tip", "By Chemical plant")
    check(
        "one click mends it",
        b"x recipe:plastic-bar by machine:chemical-plant" in bench.saved()
        and "milestone" not in b.text(".problem .why"),
        bench.saved(),
    )
    b.click(".problem .tip", "Automation science pack instead")
    check("a name that is nearly right is found", b"item:automation-science-pakc" not in bench.saved(), bench.saved())
    b.click(".problem .tip", "Drop the line")
    check("and what is left is dropped", not b.find(".problem"), b.text(".problem"))
    b.click("#undo")
    b.click("#undo")
    b.click("#undo")
    b.click("#undo")
    check("no refused line is left", not b.find(".problem"), b.text(".problem"))


def taken_back(b, bench):
    """Behind an `undo` of the script lines stand last, so that it takes nothing else back."""
    before = bench.saved()
    area = b.one("textarea")
    area.send_keys(Keys.CONTROL, Keys.END)
    area.send_keys("grant item:coal\nundo\n")
    b.settle()
    b.click('[data-route="table:electronic-circuit"]')
    b.click('[data-key="addrow"]')
    b.pick("iron stick")
    check(
        "a row behind an undo stands last",
        bench.saved().split(b"\n")[-2].startswith(b"row electronic-circuit iron-stick")
        and "Iron stick" in b.text(".rows"),
        bench.saved()[-300:],
    )
    b.click('[aria-label="Remove row iron-stick"]')
    check(
        "and goes by a line that says so",
        bench.saved().split(b"\n")[-2] == b"unrow electronic-circuit iron-stick"
        and "Iron stick" not in b.text(".rows"),
        bench.saved()[-300:],
    )
    for _ in range(3):
        b.click("#undo")
    check("the script is as it was", bench.saved() == before, bench.saved()[-300:])


def conflict(b, bench):
    area = b.one("textarea")
    with open(bench.script, "ab") as file:
        file.write(b"# another editor\n")
    area.send_keys(Keys.CONTROL, Keys.END)
    area.send_keys("# mine\n")
    check("who comes second is told", until(lambda: b.find(".conflict")), b.text("body"))
    check(
        "and nothing is overwritten",
        b"# another editor" in bench.saved() and b"# mine" not in bench.saved(),
        bench.saved(),
    )
    check("nor what one typed", area.get_attribute("value").endswith("# mine\n"), area.get_attribute("value"))
    area.send_keys("# more of mine\n")
    b.settle()
    looked_at(b, "conflict")
    reached(b, "conflict")
    for width, height in SIZES:
        b.size(width, height)
        seen = b.js(
            "return [...document.querySelectorAll('.conflict button')].every(e => { const r = e.getBoundingClientRect();"
            " return e.contains(document.elementFromPoint(r.x + r.width / 2, r.y + r.height / 2)); })"
        )
        check("the choice isn't covered at %d pixels" % width, seen)
    b.size(*SIZES[0])
    b.click("#keep-both")
    names = bench.files()
    with open(os.path.join(bench.folder, "factory (mine).txt")) as file:
        mine = file.read()
    check(
        "both texts are kept",
        names == ["factory (mine).txt", "factory.txt"]
        and mine.endswith("# mine\n# more of mine\n")
        and b"# another editor" in bench.saved(),
        (names, mine),
    )
    check("theirs is shown", b.one("textarea").get_attribute("value").endswith("# another editor\n"))
    b.click("#undo")
    check("and mine is behind Undo", bench.saved().endswith(b"# more of mine\n"), bench.saved())
    b.click("#redo")
    with open(bench.script, "ab") as file:
        file.write(b"# the editor again\n")
    b.js("window.dispatchEvent(new Event('focus'))")
    check(
        "what an editor wrote is read when the window is looked at",
        until(lambda: "# the editor again" in b.one("textarea").get_attribute("value")),
        b.text("#toasts"),
    )
    b.settle()
    with open(bench.script, "ab") as file:
        file.write(b"# once more the editor\n")
    b.js(
        "const a = document.querySelector('textarea'); a.value += '# half typed\\n'; a.dispatchEvent(new Event('input')); window.dispatchEvent(new Event('focus'));"
    )
    check(
        "where one types meanwhile, too, who comes second is told", until(lambda: b.find(".conflict")), b.text("body")
    )
    b.settle()
    check(
        "and neither is lost",
        b"# once more the editor" in bench.saved()
        and b"# half typed" not in bench.saved()
        and b.one("textarea").get_attribute("value").endswith("# half typed\n"),
        (bench.saved(), b.one("textarea").get_attribute("value")),
    )
    b.click("#take-theirs")
    check(
        "and one can be taken",
        not b.find(".conflict") and b.one("textarea").get_attribute("value").endswith("# once more the editor\n"),
    )
    # Two tabs.
    first = b.it.current_window_handle
    token = b.js("return sessionStorage.getItem('token')")
    b.it.switch_to.new_window("tab")
    b.size(1280, 900)
    b.it.get("http://%s/#%s" % (bench.here, token))
    b.settle()
    b.click('[data-route="what"]')
    b.click('[data-key="add grant"]')
    b.pick("stone furnace")
    check("a second tab saves", b"grant item:stone-furnace" in bench.saved(), bench.saved())
    b.it.close()
    b.it.switch_to.window(first)
    b.one("textarea").send_keys(Keys.CONTROL, Keys.END)
    b.one("textarea").send_keys("# the first tab\n")
    b.settle()
    check(
        "both are there then",
        b"# the first tab" in bench.saved() and b"grant item:stone-furnace" in bench.saved(),
        bench.saved(),
    )
    b.click("#undo")
    b.click("#undo")
    check("each by itself behind Undo", b"grant item:stone-furnace" not in bench.saved(), bench.saved())


def several(b, bench):
    b.click('[data-key="new"]')
    b.one('[data-key="new name"]').send_keys("second")
    b.click(".picker .main")
    check(
        "a second script of the folder",
        os.path.exists(os.path.join(bench.folder, "second.txt")) and b.one("textarea").get_attribute("value") == "",
        os.listdir(bench.folder),
    )
    check("and the way back", "factory.txt" in b.text(".files"))
    b.js("const s = document.querySelector('.files'); s.value = 'factory.txt'; s.dispatchEvent(new Event('change'))")
    check("where all is as it was", until(lambda: "electronic-circuit" in b.one("textarea").get_attribute("value")))
    b.settle()
    b.click(".script .quiet", "Save as page")
    found = lambda: [n for n in os.listdir(b.downloads) if n.endswith(".html")]
    check("a page as one file", until(found, 20), os.listdir(b.downloads))
    if found():
        with open(os.path.join(b.downloads, found()[0])) as file:
            text = file.read()
        check("with the plan, and no request", "electronic-circuit" in text and "default-src" in text, text[:300])
    with open(os.path.join(bench.folder, "second.txt"), "wb") as file:
        file.write(b"# a line\r\ntable w\r\n")
    b.js("const s = document.querySelector('.files'); s.value = 'second.txt'; s.dispatchEvent(new Event('change'))")
    check(
        "a script whose lines end in another way is opened",
        until(lambda: b.one("textarea").get_attribute("value") == "# a line\ntable w\n"),
    )
    b.settle()
    b.one("textarea").click()
    b.js("document.activeElement.blur()")
    b.settle()
    second = lambda: open(os.path.join(bench.folder, "second.txt"), "rb").read()
    check("and isn't written where nothing was typed", second() == b"# a line\r\ntable w\r\n", second())
    b.one("textarea").send_keys(Keys.CONTROL, Keys.END)
    b.one("textarea").send_keys("table v\n")
    b.settle()
    check("what is typed ends its lines as the others do", second() == b"# a line\r\ntable w\r\ntable v\r\n", second())
    b.js("const s = document.querySelector('.files'); s.value = 'factory.txt'; s.dispatchEvent(new Event('change'))")
    check("and back again", until(lambda: "electronic-circuit" in b.one("textarea").get_attribute("value")))
    b.settle()
    b.keys(Keys.ESCAPE)


def by_keys(b, bench):
    """A wish without the mouse."""
    b.js("document.activeElement.blur()")
    b.keys("w")
    time.sleep(0.2)
    check("a key leads to the wish", b.focus() == "good", b.focus())
    b.keys(Keys.ENTER)
    at = lambda: b.one(".picker input").get_attribute("aria-activedescendant")
    first = at()
    b.keys(Keys.ARROW_DOWN)
    second = at()
    b.keys(Keys.ARROW_UP)
    check("the arrows go through a list", first and second and first != second and at() == first, (first, second, at()))
    b.keys(*"copper cable")
    b.keys(Keys.ENTER)
    check("the focus comes back from the list", b.focus() == "good", b.focus())
    b.keys(Keys.TAB)
    check("the next is the button", b.focus() == "make", b.focus())
    b.keys(Keys.ENTER)
    check("a plan without the mouse", "copper-cable" in b.text(".tab.now") or proved(b), b.text("main"))
    looked_at(b, "table")
    reached(b, "table")
    b.js("document.querySelector('[data-key^=\"slot0 \"]').focus()")
    b.chord(Keys.SHIFT, Keys.ENTER)
    check(
        "a slot alone by the keys, too", "A module for this slot" in b.one(".picker input").get_attribute("aria-label")
    )
    b.keys(Keys.ESCAPE)
    b.js("document.querySelector('svg .card').focus()")
    b.keys(Keys.ENTER)
    check("a card of the chart opens by Enter", len(b.find("aside .card")) == 1)
    b.keys(Keys.ESCAPE)
    b.js("document.activeElement.blur()")
    b.keys("e")
    check("a key opens the script", len(b.find("textarea")) == 1)
    b.keys("e")
    b.keys("?")
    check("a key tells the keys", "Ctrl Z undo" in b.said(), b.said())
    seen, faint = b.contrast()
    b.size(1280, 900, "dark")
    faint += b.contrast()[1]
    b.size(1280, 900, "light")
    check("a message stands out", seen > 10 and not faint, faint)


def dark(b, bench):
    b.click('[data-route="table:electronic-circuit"]')
    b.size(1280, 900, "dark")
    b.shot("workbench-dark")
    b.size(320, 700, "light")
    b.shot("workbench-narrow")
    b.size(1280, 900)


def science(b, bench):
    b.click('[data-route="wish"]')
    b.write(".amount", "45")
    looked_at(b, "wish")
    b.click("#science")
    check(
        "all of science in one table",
        "science" in b.text(".tab.now") and b.text(".verdict").count("machines") == 1,
        b.text("main")[:600],
    )
    b.shot("workbench-science")
    b.size(2400, 1400)
    check("in a wide window, too, nothing is wider than its box", not b.spilt(), b.spilt())
    b.size(*SIZES[0])


WAY = [
    wish,
    changes,
    unsolved,
    cures,
    from_nothing,
    unmet,
    options,
    in_belts,
    exploring,
    refusals,
    taken_back,
    conflict,
    several,
    by_keys,
    dark,
    science,
]


def way(program, make):
    """All of it in one window, one after another."""
    with Bench(program, more=["--seconds", "60"]) as bench:
        b = make()
        try:
            go_through(WAY, b, bench, failed=lambda part: b.shot("fault-" + part.__name__))
            faults = [f for f in b.faults() if "favicon" not in f]
            check("no complaints of the browser", not faults, faults)
        finally:
            b.it.quit()
