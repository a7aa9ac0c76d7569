"""The manners of the page: numbers as they are typed, the browser's own undo in a field, what is said of a refused click, what is seen
while the game is read, and how the page stands alone without its server and goes on with another."""
import json
import signal
import time

from selenium.webdriver.common.keys import Keys

from common import Bench, check, go_through, program_that, until

IRON = b"table t\nrow t a recipe:iron-plate by machine:electric-furnace\nwant t item:iron-plate 1\nimport t item:iron-ore 1\n"
WANT = '[data-key="want item:iron-plate"]'
# What is understood where the unit is a minute: the exact fraction, a second or in watts; None where nothing is.
HEARD = [
    ("rate", "45", "3/4"),
    ("rate", " 1,000 ", "50/3"),
    ("rate", "6 000", "100"),
    ("rate", "6\u2009000", "100"),
    ("rate", "1'000'000", "50000/3"),
    ("rate", "1.000.000,5", "666667/40"),
    ("rate", "1.000", "1/60"),
    ("rate", "1,5", "1/40"),
    ("rate", "0,125", "1/480"),
    ("rate", "10k", "500/3"),
    ("rate", "100M", "5000000/3"),
    ("rate", "1e3", "50/3"),
    ("rate", "1/3", "1/180"),
    ("rate", "45/min", "3/4"),
    ("rate", "2.5k/h", "25/36"),
    ("rate", "7/2 per second", "7/2"),
    ("rate", "1 00", None),
    ("rate", "1,00,000", None),
    ("rate", "10kk", None),
    ("rate", "1/0", None),
    ("rate", "-1", None),
    ("rate", "5 W", None),
    ("rate", "iron", None),
    ("rate", "", None),
    ("power", "100 MW", "100000000"),
    ("power", "100M", "100000000"),
    ("power", "2.5 GW", "2500000000"),
    ("power", "5/min", None),
    ("belts", "1/2", "1/2"),
    ("belts", "90/min", "3/2"),
    ("number", "2.5k", "2500"),
    ("number", "45/min", None),
    ("whole", "1 000", "1000"),
    ("whole", "2.5", None),
    ("whole", "70000", None),
]
HEAR = """
const [asked, done] = arguments;
import('/numbers.js').then(({ hear }) =>
  done(asked.map(([sort, text]) => hear(text, sort, sort === 'whole' ? { most: 65535 } : {})).map(it => [it.x && `${it.x}`, it.said])));
"""
# The counts of machines whose text doesn't fit its cell.
CUT = """return [...document.querySelectorAll('.rows td.count')].filter(td => td.querySelector('b').getBoundingClientRect().right
  > td.getBoundingClientRect().right + 0.5).map(td => td.textContent)"""
ADD = (
    "const [text, done] = arguments; import('/changes.js').then(({ change }) => done(change({ add: [text] }) && null))"
)
SHORT = b"--seconds N of the workbench"


def manners(program, make):
    b = make()
    try:
        go_through((numbers, undoes, refused, widths, reads, alone), program, b)
    finally:
        b.it.quit()


def begin(b, bench):
    b.it.get(bench.url)
    b.settle()


def numbers(program, b):
    """One reader for all fields; beside a field stands what was understood."""
    text = IRON + b"table p\nwant p special:electricity 100000000\nimport p special:electricity 1\n"
    with Bench(program, text=text) as bench:
        begin(b, bench)
        b.click('[data-route="table:t"]')
        told = b.it.execute_async_script(HEAR, [[sort, typed] for sort, typed, _ in HEARD])
        wrong = [(it, x, said) for it, (x, said) in zip(HEARD, told) if x != it[2] or not said]
        check("numbers are read as they are meant", not wrong, wrong)
        field = b.one(WANT)
        field.send_keys(Keys.CONTROL, "a")
        field.send_keys("2.5k/h")
        check(
            "what is understood stands beside the field",
            b.text("#heard").endswith("/min, exactly 125/3"),
            b.text("#heard"),
        )
        field.send_keys(Keys.ENTER)
        b.settle()
        check("and that is what is written", b"want t item:iron-plate 25/36\n" in bench.saved(), bench.saved())
        b.write(WANT, "1x", Keys.ENTER)
        check(
            "what is no number is told beside the field, and not written",
            "that is no number" in b.text("#heard")
            and b.one(WANT).get_attribute("aria-invalid") == "true"
            and b"want t item:iron-plate 25/36\n" in bench.saved(),
            b.text("#heard"),
        )
        b.write(WANT, "6 000 000 000", Keys.ENTER)
        check("it is read again as it is shown", b.one(WANT).get_attribute("value") == "6 000 000 000")
        for width in (1400, 900, 400):
            b.size(width, 900)
            check("no count of machines is cut at %d pixels" % width, not b.js(CUT), b.js(CUT))
        b.size(1280, 900)
        b.click('[data-route="table:p"]')
        power = '[data-key="want special:electricity"]'
        check(
            "power has its unit", b.one(power).get_attribute("value") == "100 MW", b.one(power).get_attribute("value")
        )
        b.write(power, "2.5k", Keys.ENTER)
        check("and is read without it, too", b"want p special:electricity 2500\n" in bench.saved(), bench.saved())


def undoes(program, b):
    """In a field Ctrl Z takes back what was typed there; elsewhere it takes back a change of the plan."""
    with Bench(program, text=IRON) as bench:
        begin(b, bench)
        b.write(WANT, "120", Keys.ENTER)
        b.one("#search").click()
        b.one("#search").send_keys("iron") if b.one("#search").tag_name == "input" else b.keys("iron")
        b.chord(Keys.CONTROL, "z")
        check("Ctrl Z in a field leaves the plan", b"want t item:iron-plate 2\n" in bench.saved(), bench.saved())
        b.keys(Keys.ESCAPE)
        field = b.one(WANT)
        field.send_keys("7")
        b.chord(Keys.CONTROL, "z")
        check("and takes back what was typed", field.get_attribute("value") == "120", field.get_attribute("value"))
        field.send_keys(Keys.ESCAPE)
        b.js("document.activeElement.blur()")
        b.chord(Keys.CONTROL, "z")
        check("elsewhere it takes back the change", b"want t item:iron-plate 1\n" in bench.saved(), bench.saved())


def refused(program, b):
    """What the script doesn't take of a click is told where it was clicked, with a way back."""
    with Bench(program, text=IRON) as bench:
        begin(b, bench)
        anchor = '[data-key="addrow"]'
        b.js("document.querySelector(arguments[0]).focus()", anchor)
        b.it.execute_async_script(ADD, "row t h special:heat by machine:nuclear-reactor")
        b.settle()
        check(
            "a row of heat is refused in the words of the limits",
            "It isn’t taken" in b.text(".refusal")
            and "heat pipes and heat exchangers aren’t rows" in b.text(".refusal"),
            b.text(".refusal") or b.text("body"),
        )
        box, button = b.js(
            "return ['.picker', arguments[0]].map(c => document.querySelector(c).getBoundingClientRect().toJSON())",
            anchor,
        )
        near = min(abs(box["top"] - button["bottom"]), abs(button["top"] - box["bottom"])) < 40
        check("by what was clicked", near, (box, button))
        b.click(".picker .tip", "Take it back")
        check("and can be taken back", bench.saved() == IRON and not b.find(".picker"), bench.saved())
        b.click(anchor)
        b.one(".picker input").send_keys("steam")
        offered = b.text(".picker")
        check("what can't be a row isn't offered", "500" not in offered, offered)
        b.keys(Keys.ESCAPE)


def widths(program, b):
    """Names are to be read at 900 pixels, and power is seen beside an open card at 1,400."""
    with Bench(program, text=IRON) as bench:
        begin(b, bench)
        name = "const e = document.querySelector('.rows td.by .name'); return e ? e.getBoundingClientRect().width : 0"
        b.size(900, 800)
        check("the name of a machine is seen at 900 pixels", b.js(name) > 60, b.js(name))
        b.size(1400, 900)
        b.click(".rows .name .chip")
        seen = "const [e, m] = ['.rows tbody td.power', 'main'].map(c => document.querySelector(c)?.getBoundingClientRect()); return Boolean(e && e.right <= m.right + 1)"
        check("power is seen beside an open card", b.js(seen), b.text(".rows"))
        b.size(1280, 900)


def reads(program, b):
    """How long an answer may take is told with its option, and one may stop."""
    with program_that("exec sleep 60") as slow:
        with Bench(slow, more=["--seconds", "2"]) as bench:
            b.it.get(bench.url)
            check(
                "what takes too long is told with the option that gives it more",
                until(lambda: SHORT.decode() in b.text(".start")),
                b.text("body"),
            )
        with Bench(slow, more=["--seconds", "60"]) as bench:
            b.it.get(bench.url)
            check("how far it has read is told", until(lambda: " MB." in b.text(".start")), b.text("body"))
            progress = bench.call("progress", file="factory.txt")[1]
            check("as the system says", progress["size"] > 0 and progress["read"] is not None, progress)
            b.one('[data-key="stop"]').click()
            check("it can be stopped", until(lambda: "it was stopped" in b.text(".start")), b.text("body"))
            check("and no planner is left", until(lambda: not bench.children()), bench.children())


def alone(program, b):
    """Without its server the page says so, and goes on once there is one again."""
    with Bench(program, text=IRON, more=["--port", "0"]) as bench:
        begin(b, bench)
        b.click('[data-key="theme"], #theme')
        theme = b.js("return document.documentElement.dataset.theme")
        time.sleep(1)  # (until it is kept)
        bench.process.send_signal(signal.SIGINT)
        bench.process.wait(10)
        field = b.one(WANT)
        field.send_keys(Keys.CONTROL, "a")
        field.send_keys("120", Keys.ENTER)
        check("it says that it stands alone", until(lambda: "stands alone" in b.text(".conflict")), b.text("body"))
        check(
            "what isn't answered isn't proved",
            until(lambda: "Not answered" in b.text(".verdict")) and not b.find(".proof") and b.find(".stale"),
            b.text(".verdict"),
        )
        check("what was typed stays", b.one(WANT).get_attribute("value") == "120")
        check("and nothing but that is said", "Failed to fetch" not in b.text("body") + b.said(), b.said())
        with Bench(program, folder=bench.folder) as again:
            check("a server that is started anew has its address", again.url == bench.url, (again.url, bench.url))
            check(
                "the page goes on with it by itself",
                until(lambda: not b.find(".conflict") and b"want t item:iron-plate 2\n" in again.saved(), 15),
                (b.text(".conflict"), again.saved()),
            )
            b.settle()
            check("and what was typed has its plan", "nothing is cheaper" in b.text(".proof"), b.text(".verdict"))
            time.sleep(1)
        with Bench(program, folder=bench.folder, more=["--port", "0"]) as other:
            check("another port", other.port != bench.port)
            begin(b, other)
            check("has the same look", b.js("return document.documentElement.dataset.theme") == theme, theme)
            b.click("#undo")
            check("and the same undo", b"want t item:iron-plate 1\n" in other.saved(), other.saved())
        kept = b"".join(json.dumps(theme).encode() for _ in range(1))
        with open(bench.folder + "/.workbench/page.json", "rb") as file:
            check("which the folder keeps", kept in file.read())


PARTS = [manners]
