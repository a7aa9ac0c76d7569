"""Runs the proved program within limits of time, size and number."""
from __future__ import annotations

import os
import subprocess
import tempfile
import threading
import time
from typing import Any

from faults import Refused
from wide_pipe import pipe_of

MOST_ANSWER = 64 << 20
MOST_SAID = 20_000
AT_ONCE, WAITING = 2, 8
# What is said of the seconds that are too few.
LONGER = " (--seconds N of the workbench gives it more)"


class Limits:
    """Lets a few runs go on at once and a few wait; who comes beyond that is refused."""

    def __init__(self, seconds: float, at_once: int = AT_ONCE, waiting: int = WAITING) -> None:
        self.seconds = seconds
        self.room = threading.Semaphore(at_once)
        self.queue = threading.BoundedSemaphore(at_once + waiting)

    def __enter__(self) -> None:
        if not self.queue.acquire(blocking=False):
            raise Refused(503, "too many answers are being worked at; try again")
        self.room.acquire()

    def __exit__(self, *_: object) -> None:
        self.room.release()
        self.queue.release()


class Program:
    """The program at a path."""

    def __init__(self, path: str, seconds: float) -> None:
        self.path = os.path.realpath(path)
        self.limits = Limits(seconds)

    def is_there(self) -> bool:
        return os.path.isfile(self.path) and os.access(self.path, os.X_OK)

    def words(self, *words: str) -> list[str]:
        """A call by its words: no shell ever sees them."""
        if not self.is_there():
            raise Refused(501, "the program isn't there")
        return [self.path, *words]

    def run(self, *words: str, given: bytes) -> dict[str, Any]:
        """Runs the program to its end. `given` is its standard input.

        It answers the exit status, what the program wrote, what it said of faults, and how long it took (milliseconds).
        """
        command = self.words(*words)
        with self.limits, tempfile.TemporaryFile() as script, tempfile.TemporaryFile() as said:
            script.write(given)
            script.seek(0)
            begun = time.monotonic()
            running = subprocess.Popen(
                command, stdin=script, stdout=subprocess.PIPE, stderr=said, cwd="/", env=surroundings()
            )
            wrote_to = pipe_of(running.stdout)
            timer = threading.Timer(self.limits.seconds, running.kill)
            timer.start()
            try:
                wrote = wrote_to.read(MOST_ANSWER + 1)
                if len(wrote) > MOST_ANSWER:
                    running.kill()
                status = running.wait()
            finally:
                timer.cancel()
                wrote_to.close()
            if status < 0:
                raise Refused(504, too_much("factoplan " + words[0], self.limits.seconds))
            said.seek(0)
            told = said.read(MOST_SAID).decode("utf-8", "replace").strip()
        return {
            "status": status,
            "text": wrote.decode("utf-8", "replace"),
            "said": told,
            "ms": int((time.monotonic() - begun) * 1000),
        }


def too_much(name: str, seconds: float) -> str:
    """Why a run was ended."""
    return "%s took more than %d seconds%s, or gave more than %d bytes" % (name, seconds, LONGER, MOST_ANSWER)


def surroundings() -> dict[str, str]:
    """The environment of the program: no more than where to find others, and memory in large pages.

    The machine lends such pages to who asks for them.
    """
    return {
        "PATH": os.environ.get("PATH", ""),
        "GLIBC_TUNABLES": os.environ.get("GLIBC_TUNABLES", "glibc.malloc.hugetlb=1"),
    }
