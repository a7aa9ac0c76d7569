"""A planner that stays (docs/SESSION.md): it is told lines, and each is answered."""
from __future__ import annotations

import os
import select
import subprocess
import tempfile
import time
from collections import deque

from program import LONGER, MOST_ANSWER, surroundings, too_much
from wide_pipe import WIDE, pipe_of, widen

MOST_REPLY = 1_000_000  # lines of an answer
CHUNK = 4096  # bytes that a pipe which has room takes at once, also while nobody reads the answers
END = b"."


class Died(Exception):
    """The program ended or fell silent: why."""


class Late(Died):
    """It took more than the seconds that it has: once more it would take as many."""


class Planner:
    """A running program. It counts the lines that it was told, and their bytes, since both have limits."""

    def __init__(self, command: list[str], seconds: float) -> None:
        self.seconds = seconds
        self.numbers = self.bytes = 0
        # Lines that were read and not looked at yet, and the pieces of one that isn't whole yet.
        self.come: deque[bytes] = deque()
        self.part: list[bytes] = []
        self.said = tempfile.TemporaryFile()
        self.running = subprocess.Popen(
            command,
            stdin=subprocess.PIPE,
            stdout=subprocess.PIPE,
            stderr=self.said,
            cwd="/",
            env=surroundings(),
            bufsize=0,
        )
        self.told, self.answers = pipe_of(self.running.stdin), pipe_of(self.running.stdout)
        widen(self.answers)

    def end(self) -> None:
        self.running.kill()
        self.told.close()
        self.answers.close()
        self.running.wait()
        self.said.close()

    def stop(self) -> None:
        """Ends the program: who waits for an answer comes to the end of it."""
        self.running.kill()

    def bytes_read(self) -> int | None:
        """How many bytes it has read, where the system tells (Linux)."""
        try:
            with open("/proc/%d/io" % self.running.pid) as file:
                return int(file.readline().split()[1])
        except (OSError, ValueError, IndexError):
            return None

    def say(self, lines: list[bytes]) -> list[tuple[int, list[bytes]]]:
        """The number and the reply of each line, in order.

        Lines go out a few at a time, so that no pipe is ever full on both sides.
        """
        out: list[tuple[int, list[bytes]]] = []
        chunk: list[bytes] = []
        size = 0
        for line in lines:
            if chunk and size + len(line) > CHUNK:
                out += self.say_at_once(chunk)
                chunk, size = [], 0
            chunk.append(line)
            size += len(line) + 2
        return out + self.say_at_once(chunk)

    def say_at_once(self, lines: list[bytes]) -> list[tuple[int, list[bytes]]]:
        self.put(b"".join(line + b"\n" for line in lines))
        out = []
        for line in lines:
            if not line.startswith(b"?"):
                self.numbers += 1
                self.bytes += len(line) + 1
            out.append((self.numbers, self.reply()))
        return out

    def put(self, data: bytes) -> None:
        """Writes to the program, piece by piece and within the time of an answer.

        One line may be longer than a pipe has room for.
        """
        end, pipe, rest = time.monotonic() + self.seconds, self.told.fileno(), memoryview(data)
        while rest:
            left = end - time.monotonic()
            if left <= 0 or not select.select([], [pipe], [], left)[1]:
                raise Late("it took no line within %d seconds%s" % (self.seconds, LONGER))
            try:
                rest = rest[os.write(pipe, rest[:CHUNK]) :]
            except OSError:
                raise Died(self.last_words())

    def reply(self) -> list[bytes]:
        """The lines of the next answer, up to its mark."""
        end, size = time.monotonic() + self.seconds, 0
        out: list[bytes] = []
        while True:
            while not self.come:
                left = end - time.monotonic()
                if left <= 0 or not select.select([self.answers], [], [], left)[0]:
                    raise Late("no answer within %d seconds%s" % (self.seconds, LONGER))
                more = os.read(self.answers.fileno(), WIDE)
                if not more:
                    raise Died(self.last_words())
                size += len(more)
                if size > MOST_ANSWER:
                    raise Died(too_much("it", self.seconds))
                first, *others = more.split(b"\n")
                self.part.append(first)
                if others:
                    self.come.extend([b"".join(self.part), *others[:-1]])
                    self.part = others[-1:]
            line = self.come.popleft()
            if line == END:
                return out
            out.append(line)
            if len(out) > MOST_REPLY:
                raise Died(too_much("it", self.seconds))

    def last_words(self) -> str:
        """What the program said of its end."""
        status = self.running.wait()
        self.said.seek(0)
        return self.said.read(2000).decode("utf-8", "replace").strip() or "it ended with %d" % status
