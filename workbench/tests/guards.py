"""Each guard of the server has a test that fails without it: they are taken away one by one, and what must fail then is run."""
import os
import shutil
import tempfile

import common
import door
import hostile
import saves
import sessions
from harness import Tally

# What is guarded: the file, the text that guards, what stands there without it, and the test that must fail.
GUARDS = [
    ("only 127.0.0.1", "server.py", 'ADDRESS = "127.0.0.1"', 'ADDRESS = ""', door.address),
    (
        "the token",
        "server.py",
        'return hmac.compare_digest((given or "").encode("utf-8", "replace"), self.server.token.encode())',
        "return True",
        door.token,
    ),
    (
        "a token of its own",
        "workbench.py",
        "secrets.token_urlsafe(24)",
        '"0123456789abcdef0123456789abcdef"',
        door.token,
    ),
    (
        "Host",
        "server.py",
        'return self.headers.get_all("Host", []) in [[name] for name in self.server.names]',
        "return True",
        door.host,
    ),
    (
        "Origin",
        "server.py",
        'origin is None or origin in ["http://" + name for name in self.server.names]',
        "True",
        door.origin,
    ),
    ("an Origin at all", "server.py", 'or self.headers.get("Origin") is None', "", door.origin),
    (
        "Sec-Fetch-Site",
        "server.py",
        ' and site in ("none", "same-origin")',
        "",
        door.origin,
    ),
    ("the policy", "server.py", "frame-ancestors 'none'", "", door.origin),
    ("content types", "server.py", 'self.headers.get("Content-Type") != "application/json" or ', "", door.kinds),
    (
        "calls by name",
        "server.py",
        "if not call or call.group(1) not in CALLS and not is_entry:",
        "if not call:",
        door.paths,
    ),
    ("names of scripts", "scripts.py", "if name != self.first and not NAME.match(name):", "if False:", door.paths),
    ("links", "scripts.py", "os.path.islink(path) or ", "", door.paths),
    ("names of pictures", "pictures.py", " or not NAME.match(name)", "", door.pictures),
    ("options of wishes", "bench.py", "        check_wish(words)\n", "", door.paths),
    (
        "questions alone",
        "session.py",
        'if first_word(question) not in QUESTIONS or b"\\n" in question:',
        "if False:",
        door.paths,
    ),
    ("time of a program", "program.py", "timer.start()", "", door.time_limit),
    (
        "time of a planner",
        "planner.py",
        "if left <= 0 or not select.select([self.answers], [], [], left)[0]:",
        "if False:",
        door.time_limit,
    ),
    (
        "time of a planner that takes no line",
        "planner.py",
        "if left <= 0 or not select.select([], [pipe], [], left)[1]:",
        "if False:",
        door.time_limit,
    ),
    (
        "size of an answer",
        "program.py",
        "wrote_to.read(MOST_ANSWER + 1)",
        "running.stdout.read()[:MOST_ANSWER]",
        door.size_limit,
    ),
    (
        "what was cut off is no answer",
        "program.py",
        "            if status < 0:",
        "            if False:",
        door.size_limit,
    ),
    ("size of a planner's answer", "planner.py", "if size > MOST_ANSWER:", "if False:", door.size_limit),
    (
        "size of a script",
        "scripts.py",
        'if len(data) > MOST_SCRIPT:\n            raise Refused(413, "the script has more than %d bytes" % MOST_SCRIPT)\n        path',
        "path",
        door.size_limit,
    ),
    (
        "size of a request",
        "server.py",
        "if int(length) > (MOST_ENTRY if is_entry else MOST_ASKED):",
        "if False:",
        door.size_limit,
    ),
    ("number of questions", "bench.py", "or len(questions) > MOST_QUESTIONS", "", door.size_limit),
    ("number of runs", "program.py", "if not self.queue.acquire(blocking=False):", "if False:", door.number_limit),
    ("runs at once", "program.py", "AT_ONCE, WAITING = 2, 8", "AT_ONCE, WAITING = 9, 1", door.number_limit),
    (
        "time of a request",
        "server.py",
        "for request in [it for it, wait in self.waits.items() if wait.end < now]:",
        "for request in []:",
        door.patience,
    ),
    (
        "number of connections",
        "server.py",
        "        if self.room.acquire(blocking=False):\n            return True\n",
        "        return True\n",
        door.number_limit,
    ),
    (
        "connections that say nothing",
        "server.py",
        "                self.cut(idle)",
        "                pass",
        door.number_limit,
    ),
    ("a word that works once", "server.py", "self.entry = None", "pass", door.opens),
    ("the word", "server.py", "not isinstance(word, str) or word != self.entry", "False", door.opens),
    ("a token for nobody else", "kept.py", " and not found.st_mode & 0o077", "", door.ports),
    (
        "a script whole",
        "scripts.py",
        "made, new = tempfile.mkstemp(prefix=PREFIX, dir=folder)",
        "made, new = os.open(path, os.O_WRONLY | os.O_CREAT | os.O_TRUNC), path",
        saves.killed,
    ),
    (
        "a full disk",
        "scripts.py",
        "made, new = tempfile.mkstemp(prefix=PREFIX, dir=folder)",
        "made, new = os.open(path, os.O_WRONLY | os.O_CREAT | os.O_TRUNC), path",
        saves.full,
    ),
    ("versions", "scripts.py", "if version_of(old) != version:", "if False:", saves.conflicts),
    ("an editor at the very moment", "scripts.py", "        if found == known:", "        if True:", saves.conflicts),
    (
        "an editor where files aren't exchanged",
        "scripts.py",
        "if version_of(theirs) != version:",
        "if False:",
        saves.conflicts,
    ),
    (
        "a new script over another",
        "scripts.py",
        'if os.path.lexists(path) or not put_in_place(path, data, version_of(b"")):',
        "if not put_in_place(path, data, version_of(self.read(name))):",
        saves.conflicts,
    ),
    ("permissions", "scripts.py", "os.chmod(new, mode_of(path))", "", saves.files),
    (
        "a planner that dies",
        "session.py",
        "if self.stopped or (isinstance(fault, Late) and self.starts > before):",
        "if True:",
        sessions.death,
    ),
    ("number of planners", "bench.py", "][:-MOST_SESSIONS]", "][:0]", sessions.death),
    (
        "a change begins no planner anew",
        "session.py",
        "if not self.planner or self.is_full(self.planner, lines[kept:], undos):",
        "if not self.planner or kept < len(self.sent):",
        sessions.death,
    ),
    (
        "undo leads back",
        "session.py",
        "while self.behind(count).held is not None or self.behind(count).done > least:",
        "while False:",
        sessions.following,
    ),
    (
        "what was taken back",
        "session.py",
        'if self.ahead and (word == b"summary" or word == b"redo" and held is None):',
        "if False:",
        sessions.following,
    ),
    (
        "names that are HTML",
        "page/dom.js",
        "v.el = document.createTextNode(v.text);",
        "v.el = Object.assign(document.createElement('span'), { innerHTML: v.text });",
        hostile.names,
    ),
    ("marks that turn a text", "page/look.js", "replace(UNSEEN, '\\u00b7')", "replace(UNSEEN, c => c)", hostile.names),
    (
        "names of 10,000 letters",
        "page/look.js",
        "seen.length > most ? seen.slice(0, most - 1) + '…' : seen",
        "text.replace(UNSEEN, '\\u00b7')",
        hostile.names,
    ),
    (
        "lines that begin with ?",
        "session.py",
        'given = [b" " + line if line.startswith(b"?") else line for line in lines]',
        "given = lines",
        sessions.following,
    ),
]


def run(program, make, only=""):
    """Takes each away and looks whether its test fails."""
    tally = Tally()
    tried = [g for g in GUARDS if not only or any(x in g[0] for x in only.split(","))]
    for name, file, old, new, test in tried:
        with tempfile.TemporaryDirectory() as room:
            without = os.path.join(room, "workbench")
            shutil.copytree(common.WORKBENCH, without, ignore=shutil.ignore_patterns("tests", "__pycache__"))
            path = os.path.join(without, file)
            with open(path) as it:
                text = it.read()
            if old not in text:
                tally.note(name, "the guard isn't there")
                continue
            with open(path, "w") as it:
                it.write(text.replace(old, new, 1))
            fails = fails_in(without, test, (program, make) if test is hostile.names else (program,))
            if tally.check("it holds without " + name, fails):
                print("ok", name, flush=True)
    return tally.end()


def fails_in(folder, test, words):
    """Whether a test fails over another server."""
    before, common.tally = common.tally, Tally()
    was = common.WORKBENCH
    defaults = common.Bench.__init__.__defaults__
    common.Bench.__init__.__defaults__ = tuple(folder if d == was else d for d in defaults)
    saves.WORKBENCH = folder
    out = os.dup(1)
    hush = os.open(os.devnull, os.O_WRONLY)
    os.dup2(hush, 1)
    try:
        test(*words)
        fails = common.tally.failed > 0
    except Exception:  # a test that can't go on fails, too
        fails = True
    finally:
        os.dup2(out, 1)
        os.close(out)
        os.close(hush)
        common.Bench.__init__.__defaults__ = defaults
        saves.WORKBENCH = was
        common.tally = before
    return fails
