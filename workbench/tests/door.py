"""Requests of others: each must be refused, and what the page may ask is limited."""
import ast
import base64
import json
import os
import shutil
import signal
import socket
import subprocess
import sys
import tempfile
import threading
import time

from common import DUMP, TOP, WORKBENCH, Bench, check, program_that, until

PICTURE = base64.b64decode(
    "iVBORw0KGgoAAAANSUhEUgAAAAEAAAABCAYAAAAfFcSJAAAADUlEQVR42mNk+M9QDwADhgGAWjR9awAAAABJRU5ErkJggg=="
)


def address(program):
    """It listens on 127.0.0.1 alone."""
    with Bench(program) as bench:
        reached = []
        for other in ("127.0.0.2", socket.gethostbyname(socket.gethostname())):
            if other == "127.0.0.1":
                continue
            with socket.socket() as it:
                it.settimeout(2)
                reached.append(it.connect_ex((other, bench.port)) == 0)
        check("only 127.0.0.1 is listened on", reached and not any(reached), reached)


def token(program):
    """A call without the token is refused, and so is a picture."""
    with Bench(program) as bench:
        ours = bench.headers()
        check(
            "a request of the page itself", bench.ask("POST", "/api/version", b'{"file":"factory.txt"}', ours)[0] == 200
        )
        for what, given in [
            ("no token", None),
            ("another token", "x" * 32),
            ("the token and more", bench.token + "x"),
            ("an empty token", ""),
        ]:
            check(
                "no answer with " + what,
                bench.ask("POST", "/api/version", b"{}", bench.headers(X_Workbench_Token=given))[0] == 403,
            )
        check(
            "the token isn't in what is given out",
            all(bench.token.encode() not in bench.ask("GET", p)[2] for p in ("/", "/app.js", "/calls.js")),
        )
        with Bench(program) as other:
            check("each run has a token of its own", other.token != bench.token and len(bench.token) >= 32)


def host(program):
    """A name of others that leads to this address (DNS rebinding) is refused."""
    with Bench(program) as bench:
        for name in (
            "evil.example:%d" % bench.port,
            "127.0.0.1",
            "127.0.0.1:1",
            "[::1]:%d" % bench.port,
            "127.0.0.1.evil.example:%d" % bench.port,
        ):
            check(
                "no answer to the name " + name.replace(str(bench.port), "PORT"),
                bench.ask("POST", "/api/version", b"{}", bench.headers(Host=name))[0] == 403,
            )
            check(
                "no page to the name " + name.replace(str(bench.port), "PORT"),
                bench.ask("GET", "/", None, {"Host": name})[0] == 403,
            )
        check("no answer without a name", bench.ask("GET", "/", None, {"X": "y"})[0] in (400, 403))


def origin(program):
    """A page of another site is refused."""
    with Bench(program) as bench:
        for what, changes in [
            ("another site", {"Origin": "http://evil.example"}),
            ("another port", {"Origin": "http://127.0.0.1:1"}),
            ("nobody", {"Origin": "null"}),
            ("no origin", {"Origin": None}),
            ("a site across", {"Sec_Fetch_Site": "cross-site"}),
            ("the same site", {"Sec_Fetch_Site": "same-site"}),
        ]:
            check(
                "no answer to a page of " + what,
                bench.ask("POST", "/api/version", b"{}", bench.headers(**changes))[0] == 403,
            )
        check(
            "no page in another's",
            bench.ask("GET", "/", None, {"Host": bench.here, "Sec-Fetch-Site": "cross-site"})[0] == 403,
        )
        headers = bench.ask("GET", "/")[1]
        check(
            "no page may show it in a frame, and it loads nothing of others",
            "default-src 'none'; script-src 'self'" in headers["Content-Security-Policy"]
            and "frame-ancestors 'none'" in headers["Content-Security-Policy"],
        )
        check(
            "nobody guesses kinds",
            headers["X-Content-Type-Options"] == "nosniff" and headers["Referrer-Policy"] == "no-referrer",
        )
        check(
            "no answer lets others read",
            "Access-Control-Allow-Origin" not in headers
            and bench.ask("OPTIONS", "/api/run", None, bench.headers())[0] == 501,
        )


def kinds(program):
    """Only JSON is taken: a form of another page can't send it without asking first."""
    with Bench(program) as bench:
        for kind in (
            "application/x-www-form-urlencoded",
            "text/plain",
            "multipart/form-data",
            "application/json; charset=x",
            None,
        ):
            check(
                "no answer to %s" % kind,
                bench.ask("POST", "/api/version", b'{"file":"factory.txt"}', bench.headers(Content_Type=kind))[0]
                == 415,
            )
        check("no answer to what is no JSON", bench.ask("POST", "/api/version", b"{", bench.headers())[0] == 400)
        check("no answer to a list", bench.ask("POST", "/api/version", b"[]", bench.headers())[0] == 400)
        check(
            "no answer to very deep JSON", bench.ask("POST", "/api/version", b"[" * 200000, bench.headers())[0] == 400
        )
        check(
            "no answer to lines of no length",
            bench.ask("POST", "/api/version", b"", bench.headers(Transfer_Encoding="chunked", Content_Length="0"))[0]
            == 415,
        )


def paths(program):
    """No path comes from the page."""
    with Bench(program, text=b"table t\n") as bench, open(os.path.join(bench.folder, "secret.json"), "w") as secret:
        secret.write("{}")
        os.symlink(DUMP, os.path.join(bench.folder, "link.txt"))
        os.mkdir(os.path.join(bench.folder, "folder.txt"))
        for path in (
            "/../workbench.py",
            "/workbench.py",
            "/page/app.js",
            "/..%2fworkbench.py",
            "//etc/passwd",
            "/picture/x/item/a",
            "/picture/%s/item/..%%2f..%%2fetc" % bench.token,
            "/picture/%s/../item/a" % bench.token,
            "/api/version",
            "/app.js/../../server.py",
        ):
            check("nothing at " + path.replace(bench.token, "TOKEN"), bench.ask("GET", path)[0] == 404)
        for name in (
            "../x.txt",
            "/etc/passwd",
            "a/b.txt",
            "..",
            ".x.txt",
            "secret.json",
            "link.txt",
            "folder.txt",
            "x\0.txt",
            "x\n.txt",
            "a" * 101 + ".txt",
            "",
        ):
            for call in ("read", "run", "create", "version"):
                status, reply = bench.call(call, file=name, script="", version="", ask=[])
                check("no %s of a file %r" % (call, name[:20]), status in (400, 404), (status, reply))
        check(
            "and nothing was written",
            bench.files() == ["factory.txt", "folder.txt", "link.txt", "secret.json"],
            bench.files(),
        )
        for call in ("do_run", "end", "session", "__init__", "text", "nothing"):
            check("no call of %s" % call, bench.ask("POST", "/api/" + call, b"{}", bench.headers())[0] == 404)
        for words in (
            ["item:coal", "1", "--script", "/etc/passwd"],
            ["--into"],
            ["--table", "--script"],
            ["--help"],
            ["-x"],
            ["--script=/etc/passwd"],
            "x",
            [1],
        ):
            check(
                "no wish with %r" % (words,),
                bench.call("wish", file="factory.txt", script="", state="", words=words)[0] == 400,
            )
        for question in (
            "grant item:coal",
            "undo",
            "table u",
            "?state\nundo",
            " undo",
            "quiet on",
            "batch",
            "",
            "?nothing",
            '"undo"',
        ):
            check("%r is no question" % question, bench.run("table t\n", [question])[0] == 400)


def pictures(program):
    """Pictures and names of the game's folder, and nothing beside it."""
    with tempfile.TemporaryDirectory() as room:
        output = os.path.join(room, "script-output")
        os.makedirs(os.path.join(output, "item"))
        for path, data in [
            ("item/iron-plate.png", PICTURE),
            ("../secret.png", b"secret"),
            ("item-locale.json", json.dumps({"names": {"iron-plate": "Plaque de fer", "odd": 1}}).encode()),
            ("fluid-locale.json", b"[1"),
        ]:
            with open(os.path.join(output, path), "wb") as file:
                file.write(data)
        os.symlink(os.path.join(room, "secret.png"), os.path.join(output, "item", "link.png"))
        with Bench(program, more=["--script-output", output]) as bench:
            it = bench.call("open")[1]
            check("names of the game", it["names"] == {"item": {"iron-plate": "Plaque de fer"}}, it["names"])
            check(
                "and of which things there are pictures",
                it["pictures"]["item"] == ["iron-plate", "link"] and it["pictures"]["recipe"] == ["iron-plate", "link"],
                it["pictures"],
            )
            at = lambda path, token=bench.token: bench.ask("GET", "/picture/%s/%s" % (token, path))
            check("a picture", at("item/iron-plate")[0] == 200 and at("recipe/iron-plate")[2] == PICTURE)
            for path in (
                "item/..%2f..%2fsecret",
                "item/../../secret",
                "item/link",
                "item/%2e%2e%2f%2e%2e%2fsecret",
                "nothing/iron-plate",
                "item/iron-plate%00",
                "item/",
            ):
                check("no picture at " + path, at(path)[0] == 404)
            check("no picture without the token", at("item/iron-plate", "x")[0] == 404)


def time_limit(program):
    """What takes too long is ended."""
    with program_that("exec sleep 60", "exec sleep 60") as slow, Bench(slow, more=["--seconds", "1"]) as bench:
        begun = time.time()
        status, reply = bench.run("table t\n")
        check(
            "a planner that falls silent is ended",
            status == 502 and "1 seconds" in reply["error"] and time.time() - begun < 20,
            reply,
        )
        begun = time.time()
        status, reply = bench.run("# %s\n" % ("x" * 200_000))
        check(
            "and so is one that takes no line that is longer than a pipe",
            status == 502 and "1 seconds" in reply["error"] and time.time() - begun < 20,
            reply,
        )
        check("a program that takes too long is ended", bench.call("page", script="")[0] == 504)
        check("and none of them is left", not bench.children(), bench.children())


def size_limit(program):
    """What is too much is refused, or ended."""
    # (a little more than may be said, and then an end: so nothing but the limit of size ends it)
    much = "head -c 70000000 /dev/zero | tr '\\0' y"
    with program_that(much, much) as endless, Bench(endless, more=["--seconds", "50"]) as bench:
        status, reply = bench.run("table t\n")
        check("a planner that says too much is ended", status == 502 and "67108864 bytes" in reply["error"], reply)
        check("a program that writes too much is ended", bench.call("page", script="")[0] == 504)
        check("and none of them is left", not bench.children(), bench.children())
    with program_that("exec yes") as endless, Bench(endless, more=["--seconds", "50"]) as bench:
        status, reply = bench.run("table t\n")
        check(
            "a planner that says too many lines is ended", status == 502 and "67108864 bytes" in reply["error"], reply
        )
        check("and it isn't left", not bench.children(), bench.children())
    with Bench(program) as bench:
        check(
            "a script of over 16 MB is refused",
            bench.call(
                "run",
                file="factory.txt",
                script="#" * (16 << 20) + "#",
                version=bench.call("version", file="factory.txt")[1]["version"],
                ask=[],
            )[0]
            == 413,
        )
        check(
            "a request of over 48 MB isn't read",
            bench.ask("POST", "/api/run", None, bench.headers(Content_Length=str(1 << 30)))[0] == 413,
        )
        check("more than 2,000 questions are refused", bench.run("", ["summary"] * 2001)[0] == 400)
        check("more than 90,000 lines are refused", bench.run("#\n" * 90001)[0] == 413)
        check("and nothing was written", bench.saved() == b"")


def number_limit(program):
    """Only so many runs at once, and only so many connections."""
    with tempfile.TemporaryDirectory() as room, program_that(
        "exec sleep 60", "while [ ! -e '%s/over' ]; do sleep 0.05; done" % room
    ) as slow, Bench(slow, more=["--seconds", "60"]) as bench:
        statuses = []
        threads = [
            threading.Thread(target=lambda: statuses.append(bench.call("page", script="")[0])) for _ in range(30)
        ]
        for it in threads:
            it.start()
        until(lambda: len(statuses) >= 20, 20)
        at_once = len(bench.children())
        with open(os.path.join(room, "over"), "w"):
            pass
        for it in threads:
            it.join()
        check("two programs at once", at_once == 2, at_once)
        check(
            "ten in all, and the others are told to come again",
            statuses.count(503) == 20 and statuses.count(200) == 10,
            statuses,
        )
    with Bench(program) as bench:
        held = [socket.create_connection(("127.0.0.1", bench.port)) for _ in range(80)]
        begun = time.time()
        status = bench.ask("GET", "/", seconds=20)[0]
        check("80 connections that say nothing keep nobody out", status == 200 and time.time() - begun < 3, status)
        open_still = sum(not is_ended(it) for it in held)
        check("and not more than 64 are open", 32 <= open_still < 64, open_still)
        for it in held:
            it.close()


def is_ended(connection):
    """Whether the other end of a connection is closed."""
    connection.settimeout(0.01)
    try:
        return connection.recv(1) == b""
    except socket.timeout:
        return False
    except ConnectionError:
        return True


def patience(program):
    """Who says only half of what is to be said doesn't hold a place for ever. (In a copy of the server that waits a second.)"""
    server = next(it for it in Bench.__init__.__defaults__ if isinstance(it, str) and os.path.isdir(it))
    with tempfile.TemporaryDirectory() as room:
        copy = os.path.join(room, "workbench")
        shutil.copytree(server, copy, ignore=shutil.ignore_patterns("tests", "__pycache__"))
        with open(os.path.join(copy, "server.py")) as file:
            text = file.read()
        with open(os.path.join(copy, "server.py"), "w") as file:
            file.write(text.replace("HEAD, NEXT, PATIENCE = 5, 20, 30", "HEAD, NEXT, PATIENCE = 1, 1, 1"))
        with Bench(program, server=copy) as bench:
            for half in (
                b"",
                b"POST /api/run HTTP/1.1\r\nHost: ",
                b"POST /api/version HTTP/1.1\r\n"
                + "".join("%s: %s\r\n" % it for it in bench.headers(Content_Length="100").items()).encode()
                + b"\r\n{",
            ):
                with socket.create_connection(("127.0.0.1", bench.port), timeout=8) as it:
                    it.sendall(half)
                    try:
                        while it.recv(1 << 16):
                            pass
                        ended = True
                    except socket.timeout:
                        ended = False
                check("a connection that stops after %d bytes is ended" % min(len(half), 100), ended)
            with socket.create_connection(("127.0.0.1", bench.port), timeout=8) as it:
                check("and so is one that says a letter at a time", until(lambda: is_dripped_out(it), 6))


def is_dripped_out(connection):
    """Whether a connection is ended, to which a letter more is said."""
    time.sleep(0.2)
    try:
        connection.sendall(b"x")
    except ConnectionError:
        return True
    return is_ended(connection)


def opens(program):
    """It opens the browser that the system names on its address, unless it is told not to."""
    with tempfile.TemporaryDirectory() as room:
        browser, told = os.path.join(room, "browser"), os.path.join(room, "told")
        with open(browser, "w") as file:
            file.write("#!/bin/sh\nprintf '%%s' \"$1\" >'%s.new'\nmv '%s.new' '%s'\n" % (told, told, told))
        os.chmod(browser, 0o755)
        with Bench(program, opens=True, env={**os.environ, "BROWSER": browser}) as bench:

            def said():
                with open(told) as file:
                    return file.read()

            check(
                "it opens the browser on its address, with a word in place of the token",
                until(lambda: os.path.exists(told))
                and said().startswith("http://%s/#once-" % bench.here)
                and bench.token not in said(),
                (bench.url, os.path.exists(told) and said()),
            )
            word = said().split("#once-")[1]
            enter = lambda given, **changes: bench.ask(
                "POST",
                "/api/enter",
                json.dumps({"word": given}).encode(),
                bench.headers(**{"X_Workbench_Token": None, **changes}),
            )
            for what, given in (("another word", word + "x"), ("no word", None), ("a list", [word])):
                check("no token for %s" % what, enter(given)[0] == 403)
            check("nor for a page of another site", enter(word, Origin="http://evil.example")[0] == 403)
            check("the word gives the token", json.loads(enter(word)[2]) == {"token": bench.token})
            check("once", enter(word)[0] == 403)
            check("a long request is refused without the token", enter("x" * 2000)[0] == 413)


def foreground(program):
    """A browser of the terminal, which stays in the foreground, is answered; and Ctrl C ends without a traceback."""
    with tempfile.TemporaryDirectory() as room:
        browser = os.path.join(room, "browser")
        with open(browser, "w") as file:
            file.write("#!/bin/sh\nexec sleep 60\n")
        os.chmod(browser, 0o755)
        with Bench(program, opens=True, env={**os.environ, "BROWSER": browser}, more=["--port", "0"]) as bench:
            check("it answers beside a browser in the foreground", bench.ask("GET", "/", seconds=5)[0] == 200)
            check("the browser is there", until(bench.children))
            sleeping = bench.children()
            bench.process.send_signal(signal.SIGINT)
            status = bench.process.wait(10)
            for pid in sleeping:
                os.kill(pid, signal.SIGKILL)
            said = bench.process.stderr.read()
            check("Ctrl C ends it without a word", status == 0 and said == "", (status, said))


def ports(program):
    """Where a port is taken it is one of the next, and it says so; a folder keeps its port and its token."""
    with tempfile.TemporaryDirectory() as folder:
        with Bench(program, folder=folder, more=["--port", "0"]) as bench:
            first = bench.url
            with Bench(program, more=["--port", str(bench.port)]) as other:
                other.process.send_signal(signal.SIGINT)
                said = other.process.stderr.read()
                check(
                    "a taken port is told, and one of the next taken",
                    bench.port < other.port <= bench.port + 20
                    and said == "factoplan: port %d is taken, so it is %d\n" % (bench.port, other.port),
                    said,
                )
        kept = os.path.join(folder, ".workbench", "address")
        check(
            "the address is kept for nobody else to read",
            os.stat(kept).st_mode & 0o777 == 0o600 and os.stat(os.path.dirname(kept)).st_mode & 0o777 == 0o700,
        )
        with Bench(program, folder=folder) as bench:
            check("a server that is started anew has its address", bench.url == first, (bench.url, first))
            status = bench.call("keep", values={"theme": "dark", "per": 1})[0]
            check("and keeps how the page is left", status == 200 and not bench.process.poll())
        with Bench(program, folder=folder, more=["--port", "0"]) as bench:
            found = bench.call("open")[1]["kept"]
            check("also at another port", found == {"theme": "dark", "per": 1} and bench.url != first, found)
        os.chmod(kept, 0o644)
        with Bench(program, folder=folder, more=["--port", str(first.split(":")[2].split("/")[0])]) as bench:
            check("a token that others could read isn't taken again", bench.url != first)


def plain_python(program):
    """Python 3.8 and its standard library are all that it needs."""
    ours = {name[:-3] for name in os.listdir(WORKBENCH) if name.endswith(".py")}
    known = getattr(sys, "stdlib_module_names", None)
    for name in sorted(ours):
        with open(os.path.join(WORKBENCH, name + ".py")) as file:
            tree = ast.parse(file.read(), name, feature_version=(3, 8))
        used = {it.name.split(".")[0] for node in ast.walk(tree) if isinstance(node, ast.Import) for it in node.names}
        used |= {node.module.split(".")[0] for node in ast.walk(tree) if isinstance(node, ast.ImportFrom)}
        check("%s.py needs only Python itself" % name, not known or used <= ours | set(known), used)


def ends(program):
    """How it begins with a folder, and ends where it can't start."""
    with Bench(program, script="") as bench:
        check("a folder of scripts", bench.call("open")[1]["files"] == ["factory.txt"])
    start = [sys.executable, os.path.join(TOP, "workbench", "workbench.py")]
    for words, status in [
        ([], 2),
        ([DUMP, "--nothing"], 2),
        (["/nowhere.json", "x.txt", "--program", program], 4),
        ([DUMP, "/nowhere/x.txt", "--program", program], 4),
        ([DUMP, "x.txt", "--program", "/nowhere"], 4),
    ]:
        done = subprocess.run(
            [*start, *words],
            stdout=subprocess.PIPE,
            stderr=subprocess.PIPE,
            stdin=subprocess.DEVNULL,
            universal_newlines=True,
            cwd="/tmp",
            timeout=20,
        )
        check(
            "status %d of %s" % (status, words[-1:]),
            done.returncode == status and done.stderr.strip() and "Traceback" not in done.stderr,
            done,
        )


PARTS = [
    address,
    token,
    host,
    origin,
    kinds,
    paths,
    pictures,
    time_limit,
    size_limit,
    number_limit,
    patience,
    opens,
    foreground,
    ports,
    plain_python,
    ends,
]
