"""What goes wrong below the page while it is open: a planner that dies, and a disk that is full."""
import os
import resource
import signal

from selenium.webdriver.common.keys import Keys

from common import Bench, check, go_through, until

TEXT = b"table t\nrow t a recipe:iron-plate by machine:electric-furnace\nwant t item:iron-plate 1\nimport t item:iron-ore 1\n"
# What the window asked for since it was opened.
ASKED = "return performance.getEntriesByType('resource').map(e => new URL(e.name)).filter(u => u.protocol !== 'data:').map(u => u.origin)"


def troubles(program, make):
    b = make()
    try:
        go_through((dies, full, asks_nobody), program, b)
    finally:
        b.it.quit()


def dies(program, b):
    """A planner that is killed under the page is started again where it was: the player sees nothing of it."""
    with Bench(program, text=TEXT) as bench:
        b.it.get(bench.url)
        b.settle()
        pids = bench.children()
        check("a planner runs", len(pids) == 1, pids)
        for pid in pids:
            os.kill(pid, signal.SIGKILL)
        b.write('[data-key="want item:iron-plate"]', "120", Keys.ENTER)
        check(
            "the next change is answered by another",
            "nothing is cheaper" in b.text(".proof")
            and b"want t item:iron-plate 2\n" in bench.saved()
            and bench.children() not in ([], pids)
            and not b.said(),
            (b.text(".verdict"), b.said()),
        )


def full(program, b):
    """No room for the script: it is told, the old one stays on the disk and the new one on the page, and once there is room it is saved."""
    with Bench(program, text=TEXT) as bench:
        b.it.get(bench.url)
        b.settle()
        limits = resource.prlimit(bench.process.pid, resource.RLIMIT_FSIZE, (300, resource.RLIM_INFINITY))
        b.keys("e")
        b.one("textarea").send_keys(Keys.CONTROL, Keys.END)
        b.one("textarea").send_keys("# " + "much more " * 30 + "\n")
        b.settle()
        check(
            "a full disk is told",
            "No answer" in b.said() and "not saved" in b.text("#state"),
            (b.said(), b.text("#state")),
        )
        check(
            "the old text stays on the disk, alone",
            bench.saved() == TEXT and bench.files() == ["factory.txt"],
            bench.files(),
        )
        check("and the new one on the page", b.one("textarea").get_attribute("value").endswith("much more \n"))
        resource.prlimit(bench.process.pid, resource.RLIMIT_FSIZE, limits)
        b.click("#toasts button", "Try again")
        check(
            "once there is room it is saved",
            until(lambda: bench.saved().endswith(b"much more \n")) and b.text("#state") == "saved",
            bench.saved(),
        )
        b.keys(Keys.ESCAPE)


def asks_nobody(program, b):
    """The page asks its own server, and nobody else."""
    here = b.js("return location.origin")
    asked = b.js(ASKED)
    check("the page asks nobody but its server", len(asked) > 20 and set(asked) == {here}, (here, sorted(set(asked))))


PARTS = [troubles]
