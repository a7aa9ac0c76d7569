"""Scripts: whole or not at all, and nobody's text is lost."""
import json
import os
import subprocess
import sys
import threading

from common import WORKBENCH, Bench, check

# Saves one of two long texts again and again, until it is killed.
SAVER = """
import sys
sys.path.insert(0, %r)
from scripts import Scripts, version_of
it, k = Scripts(%r, "factory.txt"), 0
print("ready", flush=True)
while True:
    k += 1
    it.save("factory.txt", (b"# %%d\\n" %% (k %% 10)) * 200000, version_of(it.read("factory.txt")))
"""
# Saves where the disk has room for half of it.
FULL = """
import resource, signal, sys
signal.signal(signal.SIGXFSZ, signal.SIG_IGN)
resource.setrlimit(resource.RLIMIT_FSIZE, (50000, 50000))
sys.path.insert(0, %r)
from scripts import Scripts, version_of
it = Scripts(%r, "factory.txt")
try:
    it.save("factory.txt", b"# new\\n" * 20000, version_of(it.read("factory.txt")))
    print("saved")
except OSError as fault:
    print("refused")
"""
# Saves, and just before it is put in its place an editor writes the file, or puts one of its own there; each of that also where the system
# can't exchange files in one step, which only the first of it is noticed without.
RACE = """
import os, sys
sys.path.insert(0, %r)
import scripts
it, can, by_name = scripts.Scripts(%r, "factory.txt"), %r, %r
exchanged, link, due = scripts.exchanged, os.link, [True]
def editor():
    path = it.path("factory.txt")
    if due:
        due.pop()
        with open(path + "~" * by_name, "wb") as file:
            file.write(b"# the editor's\\n")
        os.replace(path + "~" * by_name, path)
def exchange(one, other):
    editor()
    return exchanged(one, other)
def held(old, new):
    link(old, new)
    editor()
if can:
    scripts.exchanged = exchange
else:
    scripts.exchanged, os.link = lambda *_: False, held
print(it.save("factory.txt", b"# mine\\n", scripts.version_of(it.read("factory.txt"))))
"""
# Whether two files can be exchanged in a folder.
CAN = """
import os, sys
sys.path.insert(0, %r)
import scripts
names = [os.path.join(%r, name) for name in ("one", "other")]
for name in names:
    open(name, "w").close()
print(scripts.exchanged(*names))
for name in names:
    os.unlink(name)
"""


def left_of(folder):
    return sorted(n for n in os.listdir(folder) if n not in ("factory.txt", ".workbench"))


def said_by(code):
    """What a program of Python prints."""
    return subprocess.run([sys.executable, "-c", code], stdout=subprocess.PIPE, universal_newlines=True).stdout


def killed(program):
    """A save that is killed leaves the old text or the new one."""
    with Bench(program, text=b"# 0\n" * 200000) as bench:
        whole = {(b"# %d\n" % k) * 200000 for k in range(10)}
        wrong = 0
        for k in range(12):
            saver = subprocess.Popen([sys.executable, "-c", SAVER % (WORKBENCH, bench.folder)], stdout=subprocess.PIPE)
            saver.stdout.readline()
            threading.Event().wait(0.02 + 0.013 * k)
            saver.kill()
            saver.wait()
            saver.stdout.close()
            wrong += bench.saved() not in whole
        check("a save that is killed leaves a whole text", wrong == 0, wrong)


def full(program):
    """A full disk leaves the old text, and nothing beside it."""
    with Bench(program, text=b"# old\n") as bench:
        said = said_by(FULL % (WORKBENCH, bench.folder))
        check("a full disk is told", said == "refused\n", said)
        check(
            "and leaves the old text alone",
            bench.saved() == b"# old\n" and left_of(bench.folder) == [],
            left_of(bench.folder),
        )


def conflicts(program):
    """Two tabs, and an editor: who comes second is told, and nothing is overwritten."""
    with Bench(program) as bench:
        begun = bench.call("open")[1]["version"]
        status, first = bench.run("# the first tab\n", version=begun)
        check("the first tab saves", status == 200 and bench.saved() == b"# the first tab\n")
        status, second = bench.run("# the second tab\n", version=begun)
        check(
            "the second is told, with the other's text",
            second.get("conflict")
            and second["script"] == "# the first tab\n"
            and bench.saved() == b"# the first tab\n",
            second,
        )
        with open(bench.script, "ab") as file:
            file.write(b"# an editor\n")
        status, third = bench.run("# the first tab again\n", version=first["version"])
        check(
            "and so it is where an editor wrote",
            third.get("conflict") and bench.saved() == b"# the first tab\n# an editor\n",
            third,
        )
        status, fourth = bench.run("# now\n", version=third["version"])
        check(
            "with the version that it was told it saves", fourth.get("version") and bench.saved() == b"# now\n", fourth
        )
        os.unlink(bench.script)
        gone = bench.run("# here\n", version=fourth["version"])[1]
        check(
            "a script that was taken away isn't written again unasked",
            gone.get("conflict") and not os.path.exists(bench.script),
            gone,
        )
        bench.run("# now\n", version=gone["version"])
        status, made = bench.call("create", file="factory.txt", script="# over it\n")
        check("a new script doesn't take the place of one", status == 409 and bench.saved() == b"# now\n", made)
        can = said_by(CAN % (WORKBENCH, bench.folder)) == "True\n"
        for how, *words in [("into the file", False, False)] + [
            ("into the file, in one step", True, False),
            ("as another file", True, True),
        ] * can:
            with open(bench.script, "wb") as file:
                file.write(b"# now\n")
            said = said_by(RACE % (WORKBENCH, bench.folder, *words))
            check(
                "what an editor writes %s at the very moment comes back" % how,
                said == "None\n" and bench.saved() == b"# the editor's\n" and left_of(bench.folder) == [],
                (said, bench.saved(), left_of(bench.folder)),
            )
        saved = []
        version = bench.call("version", file="factory.txt")[1]["version"]
        threads = [
            threading.Thread(
                target=lambda k=k: saved.append(bench.run("# tab %d\n" % k, version=version)[1].get("conflict", False))
            )
            for k in range(8)
        ]
        for it in threads:
            it.start()
        for it in threads:
            it.join()
        check("of eight that save at once one does", saved.count(False) == 1 and saved.count(True) == 7, saved)


def files(program):
    """Several scripts in a folder; a text that isn't UTF-8 stays as it was."""
    with Bench(program, text=b"# \xff\r\ntable t\r\n") as bench:
        it = bench.call("open")[1]
        bench.run(it["script"] + "table u\n", version=it["version"])
        check("bytes that aren't UTF-8 stay", bench.saved() == b"# \xff\r\ntable t\r\ntable u\n", bench.saved())
        mode = os.stat(bench.script).st_mode
        os.chmod(bench.script, 0o640)
        it = bench.call("open")[1]
        bench.run("table v\n", version=it["version"])
        check("and so do permissions", os.stat(bench.script).st_mode & 0o777 == 0o640, mode)
        status, made = bench.call("create", file="second one.txt", script="table w\n")
        check(
            "a script beside it",
            status == 200
            and made["files"] == ["factory.txt", "second one.txt"]
            and bench.call("read", file="second one.txt")[1]["script"] == "table w\n",
            made,
        )
        answers = [
            bench.run(text, ["summary"], file=name)[1]["answers"][0]
            for name, text in [
                ("factory.txt", "table a\ntable b\n"),
                ("second one.txt", "table a\n"),
                ("factory.txt", "table a\ntable b\n"),
            ]
        ]
        check(
            "each with a planner of its own",
            [a.split(" tables ")[1].split()[0] for a in answers] == ["2", "1", "2"] and json.dumps(answers),
            answers,
        )


PARTS = [killed, full, conflicts, files]
