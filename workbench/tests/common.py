"""What the tests of the workbench share: checks that are counted, a server that is started, and its calls."""
import contextlib
import http.client
import json
import os
import signal
import stat
import subprocess
import sys
import tempfile
import time

HERE = os.path.dirname(os.path.abspath(__file__))
WORKBENCH = os.path.dirname(HERE)
TOP = os.path.dirname(WORKBENCH)
DUMP = os.path.join(TOP, "examples", "factory.json")
sys.path.insert(1, os.path.join(TOP, "tests"))
from harness import Tally  # noqa: E402

tally = Tally()


def check(what, holds, more=""):
    """Counts a check; one that doesn't hold is told, with the beginning of what was seen."""
    return tally.check(what, holds, str(more)[:600])


def go_through(parts, *given, failed=lambda part: None):
    """Runs each part; where one breaks off, that is told, and those behind it are still run."""
    for part in parts:
        try:
            part(*given)
        except Exception as fault:
            check("%s goes through" % part.__name__, False, "%s: %s" % (type(fault).__name__, str(fault)[:300]))
            failed(part)


class Bench:
    """A running workbench on a folder of its own."""

    def __init__(
        self,
        program,
        dump=DUMP,
        script="factory.txt",
        text=None,
        more=(),
        server=WORKBENCH,
        folder=None,
        env=None,
        opens=False,
    ):
        self.room = tempfile.TemporaryDirectory()
        self.folder = folder or self.room.name
        self.script = os.path.join(self.folder, script)
        if text is not None:
            with open(self.script, "wb") as file:
                file.write(text)
        self.process = subprocess.Popen(
            [
                sys.executable,
                os.path.join(server, "workbench.py"),
                dump,
                self.script,
                "--program",
                program,
                *["--no-browser"] * (not opens),
                *more,
            ],
            stdout=subprocess.PIPE,
            stderr=subprocess.PIPE,
            universal_newlines=True,
            env=env,
        )
        self.url = self.process.stdout.readline().strip()
        if not self.url:
            raise RuntimeError("the workbench doesn't start: " + self.process.stderr.read())
        self.port, self.token = int(self.url.split(":")[2].split("/")[0]), self.url.split("#")[1]
        self.here = "127.0.0.1:%d" % self.port

    def headers(self, **changes):
        """The headers of a request of the page itself, with changes; None leaves one out."""
        good = {
            "Host": self.here,
            "Origin": "http://" + self.here,
            "X-Workbench-Token": self.token,
            "Content-Type": "application/json",
        }
        return {
            k: v for k, v in {**good, **{k.replace("_", "-"): v for k, v in changes.items()}}.items() if v is not None
        }

    def ask(self, method, path, body=None, headers=None, seconds=60):
        """The status, the headers and the body of an answer; status 0 where the connection was turned away."""
        room = http.client.HTTPConnection("127.0.0.1", self.port, timeout=seconds)
        try:
            room.putrequest(method, path, skip_host=True, skip_accept_encoding=True)
            given = dict(headers or {"Host": self.here})
            if body is not None and "Content-Length" not in given:
                given["Content-Length"] = str(len(body))
            for key, value in given.items():
                room.putheader(key, value)
            room.endheaders(body)
            reply = room.getresponse()
            return reply.status, reply.headers, reply.read()
        except (ConnectionError, http.client.HTTPException):
            return 0, {}, b""
        finally:
            room.close()

    def call(self, what, seconds=60, **asked):
        status, _, body = self.ask("POST", "/api/" + what, json.dumps(asked).encode(), self.headers(), seconds)
        return status, json.loads(body) if body else {}

    def run(self, script, ask=(), version=None, file=None):
        return self.call(
            "run", file=file or os.path.basename(self.script), script=script, version=version, ask=list(ask)
        )

    def saved(self):
        try:
            with open(self.script, "rb") as file:
                return file.read()
        except FileNotFoundError:
            return b""

    def files(self):
        """What is in the folder beside that which the workbench keeps there of itself."""
        return sorted(name for name in os.listdir(self.folder) if name != ".workbench")

    def children(self):
        """The runs of the program below the server, whichever of its threads began them."""
        found = []
        for name in os.listdir("/proc"):
            with contextlib.suppress(OSError, ValueError, IndexError), open("/proc/%d/stat" % int(name)) as file:
                if int(file.read().rsplit(")", 1)[1].split()[1]) == self.process.pid:
                    found.append(int(name))
        return sorted(found)

    def close(self):
        self.process.send_signal(signal.SIGINT)
        try:
            self.process.wait(10)
        except subprocess.TimeoutExpired:
            self.process.kill()
            self.process.wait()
        self.process.stdout.close()
        self.process.stderr.close()
        self.room.cleanup()

    def __enter__(self):
        return self

    def __exit__(self, *_):
        self.close()


@contextlib.contextmanager
def program_that(session, others="exit 0"):
    """A program that does as a line of the shell says, in a session and else."""
    with tempfile.TemporaryDirectory() as room:
        path = os.path.join(room, "factoplan")
        with open(path, "w") as file:
            file.write('#!/bin/sh\nif [ "$1" = session ]; then\n%s\nfi\n%s\n' % (session, others))
        os.chmod(path, os.stat(path).st_mode | stat.S_IXUSR)
        yield path


def until(holds, seconds=10):
    """Waits until something holds; whether it did."""
    end = time.time() + seconds
    while time.time() < end:
        if holds():
            return True
        time.sleep(0.02)
    return bool(holds())
