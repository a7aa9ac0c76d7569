"""How a planner that stays is kept behind the last line of a script that changes (docs/SESSION.md).

What is sent are the script's own lines. Where the script changed, `undo` goes back to the last line that stays, and the
lines behind it are sent. So the program answers; nothing here knows what a line means, but which lines make an entry of
the history.
"""
from __future__ import annotations

import re
import threading
from typing import NamedTuple

from faults import Refused
from planner import Died, Late, Planner
from program import Limits
from script_lines import EDITS, QUESTIONS, first_word, is_plain, is_refused, words_of

MOST_LINES, MOST_BYTES = 100_000, 16 << 20  # of one session; it is started anew before that
MOST_SCRIPT_LINES = 90_000


class Sent(NamedTuple):
    """A line of the script that was sent, and how the planner stood behind it."""

    line: bytes
    # Its number in the session.
    number: int
    reply: list[bytes]
    # How many entries of the history were done.
    done: int
    # How many edits an open batch held; None where none was open.
    held: int | None
    quiet: bool


NOTHING = Sent(b"", 0, [], 0, None, False)


class Session:
    """A running program that stands behind the lines of one script."""

    def __init__(self, command: list[str], limits: Limits) -> None:
        self.command, self.limits = command, limits
        self.lock = threading.Lock()
        self.planner: Planner | None = None
        self.retired = self.stopped = False
        self.starts = 0
        self.forget()

    def forget(self) -> None:
        self.sent: list[Sent] = []
        # Whether lines that were taken back could be done again, which the script knows nothing of.
        self.ahead = False

    # ---- What is asked of it ----

    def answers(self, lines: list[bytes], questions: list[bytes]) -> tuple[dict[int, list[bytes]], list[list[bytes]]]:
        """The replies to the lines of a script by their numbers, but for those that are just `ok` or `held`, and those
        to questions behind it. Each is a list of lines.

        A session that died is started again where it was; what it dies of a second time is told, and so is what takes
        too long in a session that was new.
        """
        if len(lines) > MOST_SCRIPT_LINES:
            raise Refused(413, "the script has more than %d lines" % MOST_SCRIPT_LINES)
        for question in questions:
            if first_word(question) not in QUESTIONS or b"\n" in question:
                raise Refused(400, "that is no question")
        with self.lock, self.limits:
            try:
                self.stopped, before = False, self.starts
                try:
                    return self.answers_once(lines, questions)
                except Died as fault:
                    self.end()
                    if self.stopped or (isinstance(fault, Late) and self.starts > before):
                        raise self.refusal(fault)
                try:
                    return self.answers_once(lines, questions)
                except Died as fault:
                    self.end()
                    raise self.refusal(fault)
            finally:
                if self.retired:
                    self.end()

    def refusal(self, fault: Died) -> Refused:
        """What is told of a session that died."""
        return Refused(409, "it was stopped") if self.stopped else Refused(502, "the planner ended: %s" % fault)

    def answers_once(
        self, lines: list[bytes], questions: list[bytes]
    ) -> tuple[dict[int, list[bytes]], list[list[bytes]]]:
        self.follow(lines)
        replies = {i + 1: self.script_reply(i) for i, it in enumerate(self.sent) if it.reply and not is_plain(it.reply)}
        return replies, [self.answer(question) for question in questions]

    def retire(self) -> None:
        """Ends the program once what is asked of it is answered."""
        self.retired = True
        if self.lock.acquire(blocking=False):
            self.end()
            self.lock.release()

    def stop(self) -> None:
        """Ends the program at once: who waits for its answer is told so."""
        self.stopped = True
        planner = self.planner
        if planner:
            planner.stop()

    def bytes_read(self) -> int | None:
        """How many bytes the program has read since it was started, where it runs and the system tells."""
        planner = self.planner
        return planner.bytes_read() if planner else None

    def end(self) -> None:
        """Ends the program, where it runs."""
        if self.planner:
            self.planner.end()
        self.planner = None
        self.forget()

    # ---- Behind a script ----

    def follow(self, lines: list[bytes]) -> None:
        """Brings the planner behind these lines: back to the last that stays, and on from there.

        It begins with the first line in a new program where this one would come to its limits, or where the lines would
        tell that others had been taken back.
        """
        kept = self.kept_of(lines)
        undos = self.last.done - self.behind(kept).done
        if not self.planner or self.is_full(self.planner, lines[kept:], undos):
            self.start()
            kept = 0
        self.go_back(kept)
        if not self.go_on(lines[kept:]):
            self.start()
            self.go_on(lines)

    @property
    def last(self) -> Sent:
        return self.sent[-1] if self.sent else NOTHING

    def behind(self, count: int) -> Sent:
        return self.sent[count - 1] if count else NOTHING

    def kept_of(self, lines: list[bytes]) -> int:
        """How many lines stay: those that are the same, but back to where no batch was open, and to where no entry was
        done that has been taken back since, for only so far `undo` leads.
        """
        count = 0
        while count < min(len(lines), len(self.sent)) and lines[count] == self.sent[count].line:
            count += 1
        if count == len(self.sent):
            return count
        least = min(it.done for it in self.sent[count:])
        while self.behind(count).held is not None or self.behind(count).done > least:
            least = min(least, self.behind(count).done)
            count -= 1
        return count

    def is_full(self, planner: Planner, lines: list[bytes], undos: int) -> bool:
        """Whether the program would come to its limits by these lines behind so many of `undo`."""
        return (
            planner.numbers + len(lines) + undos + 3000 > MOST_LINES
            or planner.bytes + sum(map(len, lines)) + len(lines) + 8 * undos + (1 << 18) > MOST_BYTES
        )

    def go_back(self, count: int) -> None:
        """Takes back what stands behind so many lines."""
        if count == len(self.sent):
            return
        last, to = self.last, self.behind(count)
        entries = any(
            it.done != before.done
            for before, it in zip(self.sent[count - 1 :] if count else [NOTHING, *self.sent], self.sent[count:])
        )
        said = self.say(
            [b"cancel"] * (last.held is not None)
            + [b"undo"] * (last.done - to.done)
            + [b"quiet on" if to.quiet else b"quiet off"] * (last.quiet != to.quiet)
        )
        if any(is_refused(reply) for _, reply in said):
            raise Died("it wouldn't take a line back")
        del self.sent[count:]
        self.ahead = self.ahead or entries

    def go_on(self, lines: list[bytes]) -> bool:
        """Sends further lines; False where one of them would tell what had been taken back."""
        # (`?` begins a question of the session. A line of the script that begins so is no command, and isn't one behind
        # a blank either.)
        given = [b" " + line if line.startswith(b"?") else line for line in lines]
        for line, (number, reply) in zip(lines, self.say(given)):
            word = first_word(line)
            done, held, quiet = self.last.done, self.last.held, self.last.quiet
            if self.ahead and (word == b"summary" or word == b"redo" and held is None):
                return False
            if word == b"end" and held is not None:
                done, held = done + (held > 0 and not is_refused(reply)), None
            elif not is_refused(reply):
                if word == b"quiet":
                    quiet = words_of(line)[1:2] == [b"on"]
                elif word == b"batch":
                    held = 0
                elif word == b"cancel":
                    held = None
                elif word == b"undo":
                    done -= 1
                elif word == b"redo" or word in EDITS and held is None:
                    done += 1
                elif word in EDITS and held is not None:
                    held += 1
            if done > self.last.done and word != b"redo":
                self.ahead = False
            self.sent.append(Sent(line, number, reply, done, held, quiet))
        return True

    # ---- Questions ----

    def answer(self, question: bytes) -> list[bytes]:
        """The reply to a question; what an open batch holds is done in none, but `?state` tells of it."""
        is_state = first_word(question) == b"?state"
        if self.last.held is not None and not is_state:
            self.go_back(self.kept_of([it.line for it in self.sent[:-1]]))
        [(_, reply)] = self.say([question])
        head = [re.sub(rb"\A\d+ ", b"? ", line) for line in reply[:1]]
        return head + ([self.with_place(line) for line in reply[1:]] if is_state else reply[1:])

    def script_reply(self, index: int) -> list[bytes]:
        """The reply to a line of the script, with the numbers of the script in place of those of the session."""
        it = self.sent[index]
        head = re.sub(rb"\A\d+ ", b"%d " % (index + 1), it.reply[0])
        if first_word(it.line) == b"end" and is_refused(it.reply):
            head = re.sub(rb"(?<= at )(\d+)\Z", lambda m: b"%d" % self.place_of(int(m.group(1))), head)
        return [head, *it.reply[1:]]

    def place_of(self, number: int) -> int:
        """The number in the script of a line by its number in the session."""
        low, high = 0, len(self.sent)
        while low < high:
            middle = (low + high) // 2
            low, high = (middle + 1, high) if self.sent[middle].number < number else (low, middle)
        return low + 1 if low < len(self.sent) and self.sent[low].number == number else 0

    def with_place(self, line: bytes) -> bytes:
        """A line of a state, with the number of its line in the script."""
        return re.sub(
            rb"\A(  (?:held |undone \d+ |\d+ ))(\d+)(?= |\Z)",
            lambda m: m.group(1) + b"%d" % self.place_of(int(m.group(2))),
            line,
        )

    # ---- The program ----

    def start(self) -> None:
        """Starts the program anew, behind nothing."""
        self.end()
        self.starts += 1
        self.planner = Planner(self.command, self.limits.seconds)

    def say(self, lines: list[bytes]) -> list[tuple[int, list[bytes]]]:
        """The number and the reply of each line, in order."""
        assert self.planner is not None
        return self.planner.say(lines)
