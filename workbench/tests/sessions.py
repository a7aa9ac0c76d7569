"""The planner behind a script: what it answers is the report of `factoplan run`, however the script came to be; and it is started again."""
import contextlib
import glob
import os
import random
import signal
import subprocess
import sys

from common import DUMP, TOP, WORKBENCH, Bench, check, until

CASES = sorted(glob.glob(os.path.join(TOP, "tests", "cases", "*.script")))


def report_of(reply):
    """The report that the replies to the lines of a script make."""
    return "".join(text + "\n" for _, text in sorted((int(n), t) for n, t in reply["replies"].items()))


def without_ok(report):
    return "".join(line for line in report.splitlines(True) if line.split(" ", 1)[-1] not in ("ok\n", "held\n"))


def run_report(program, dump, text):
    return subprocess.run(
        [program, "run", dump, "/dev/stdin"], input=text, stdout=subprocess.PIPE, stderr=subprocess.DEVNULL
    ).stdout.decode("utf-8", "replace")


# A script with all that makes following hard: batches, undo and redo, quiet, refused lines, a summary, comments, a line that begins with `?`.
HARD = """# a comment
table t
quiet on
row t gear recipe:iron-gear-wheel by machine:assembling-machine-1
quiet off
import t item:iron-plate 1
?state
batch
grant item:coal
quiet on
forbid item:wood
quiet off
nothing
end
undo
redo
want t item:iron-gear-wheel 5
summary
batch
end
batch
grant item:coal
end
batch
grant item:nowhere
end
undo
undo
redo
summary
  "quiet" "on"
grant item:stone
quiet off
solve t

batch
grant item:iron-ore
"""


def following(program):
    """After any changes of a script the answers are those of a run over it as it is."""
    chance = random.Random(41)
    with Bench(program) as bench:
        text, lines = HARD, HARD.split("\n")
        for step in range(60):
            reply = bench.run(text, ["?state", "summary"])[1]
            told = report_of(reply) if "replies" in reply else str(reply)
            if not check(
                "the script after change %d" % step,
                told == without_ok(run_report(program, DUMP, text.encode())),
                (text, told),
            ):
                return
            fresh = [*lines]
            for _ in range(chance.choice((0, 1, 1, 2, 5))):
                i = chance.randrange(len(fresh))
                chance.choice(
                    [
                        lambda: fresh.pop(i),
                        lambda: fresh.insert(i, chance.choice(lines)),
                        lambda: fresh.__setitem__(i, chance.choice(lines)),
                    ]
                )()
            text = "\n".join(fresh)


def stored():
    """The stored scripts that are answered by a report: name, dump, script and report."""
    for path in CASES:
        base = path[: -len(".script")]
        with open(base + ".status") as file:
            status = file.read().strip()
        with open(path, "rb") as file:
            script = file.read()
        if status in ("0", "1") and len(script) <= 100000 and os.path.isfile(base + ".json"):
            with open(base + ".report", "rb") as file:
                yield os.path.basename(base), base + ".json", script, file.read().decode("utf-8", "replace")
    for name in ("factory", "refusals"):
        with open(os.path.join(TOP, "examples", name + ".txt"), "rb") as script, open(
            os.path.join(TOP, "examples", name + ".report"), "rb"
        ) as report:
            yield name, DUMP, script.read(), report.read().decode("utf-8", "replace")


@contextlib.contextmanager
def planner(program, dump):
    """A planner by itself, without the server."""
    sys.path.insert(0, WORKBENCH)
    from program import Program
    from session import Session

    this = Program(program, 60)
    it = Session(this.words("session", dump), this.limits)
    try:
        yield it
    finally:
        it.end()


def lines_of(script):
    lines = script.split(b"\n")
    return lines[:-1] if lines[-1] == b"" else lines


def cases(program):
    """The stored scripts: cut, changed and put right again, each is answered by its stored report."""
    wrong, count = [], 0
    for name, dump, script, report in stored():
        lines, count = lines_of(script), count + 1
        try:
            with planner(program, dump) as it:
                for given in (
                    lines[: len(lines) // 2],
                    lines[: len(lines) // 3] + [b"# another"] + lines[len(lines) // 3 + 1 :],
                    lines,
                ):
                    replies, _ = it.answers(given, [])
            told = "".join(
                line.decode("utf-8", "replace") + "\n" for _, reply in sorted(replies.items()) for line in reply
            )
        except Exception as fault:
            told = str(fault)
        if told != without_ok(report):
            wrong.append((name, told[:300], report[:300]))
    check("%d stored scripts are answered by their reports" % count, count > 100 and not wrong, wrong[:3])


def death(program):
    """A planner that dies is started again where it was."""
    text = "table t\nrow t gear recipe:iron-gear-wheel by machine:assembling-machine-1\nimport t item:iron-plate 1\nwant t item:iron-gear-wheel 5\n"
    with Bench(program) as bench:
        before = bench.run(text, ["solve t", "?state"])[1]
        pids = bench.children()
        check(
            "one planner stays",
            len(pids) == 1 and bench.run(text, ["summary"])[0] == 200 and bench.children() == pids,
            pids,
        )
        other = text.replace("iron-gear-wheel 5", "iron-gear-wheel 6")
        told = [bench.run(it, ["solve t", "?state"])[1] for it in (other, text)]
        check(
            "and follows what changes by undo",
            "want t item:iron-gear-wheel 6" in told[0].get("answers", ["", ""])[1]
            and told[1].get("answers") == before["answers"]
            and bench.children() == pids,
            (told, bench.children()),
        )
        os.kill(pids[0], signal.SIGKILL)
        until(lambda: pids[0] not in [p for p in bench.children() if not is_dead(p)], 5)
        after = bench.run(text, ["solve t", "?state"])[1]
        check(
            "a planner that was killed is started again where it was",
            after.get("answers") == before["answers"] and bench.children() not in ([], pids),
            after,
        )
    with Bench(program, more=["--seconds", "4"]) as bench:
        bench.run(text, ["solve t"])
        pids = bench.children()
        if not check("a planner is there within 4 seconds", pids):
            return
        os.kill(pids[0], signal.SIGSTOP)
        after = bench.run(text, ["solve t", "?state"])[1]
        check("and so is one that falls silent", after.get("answers") == before["answers"], after)
        for k in range(4):
            bench.call("create", file="s%d.txt" % k, script="")
            bench.run(text, ["summary"], file="s%d.txt" % k)
        check("three planners at most", len(bench.children()) == 3, bench.children())


def is_dead(pid):
    try:
        with open("/proc/%d/stat" % pid) as file:
            return file.read().rsplit(")", 1)[1].split()[0] == "Z"
    except OSError:
        return True


PARTS = [following, death, cases]
