"""What the page may ask of the server. Each answer is what the program said; nothing is reckoned here."""
from __future__ import annotations

import os
import tempfile
import threading
import time
from typing import Any, Dict

from faults import Refused
from kept import Kept
from pictures import Pictures
from program import Program
from script_lines import quoted
from scripts import Scripts, version_of
from session import Session

MOST_QUESTIONS, MOST_SESSIONS = 2000, 3
CALLS = ("open", "read", "version", "create", "run", "wish", "page", "certificate", "keep", "progress", "stop")
# The options of a wish that the page may name, and how many words stand behind each: none of them names a file.
OPTIONS = {
    "--table": 1,
    "--by": 1,
    "--module": 1,
    "--beacon": 4,
    "--fuel": 1,
    "--import": 1,
    "--without": 1,
    "--only": 1,
    "--rows": 1,
    "--cheapest": 1,
    "--rows-for": 1,
    "--into": 1,
    "--dig": 0,
    "--power": 0,
}


# A request of the page, as JSON has it.
Asked = Dict[str, Any]


class Bench:
    """A dump, a folder of scripts, and a planner behind each of the scripts that are worked at."""

    def __init__(self, dump: str, folder: str, first: str, program: str, output: str | None, seconds: float) -> None:
        self.dump = os.path.realpath(dump)
        self.scripts, self.pictures = Scripts(folder, first), Pictures(output)
        self.program, self.kept = Program(program, seconds), Kept(folder)
        self.sessions: dict[tuple[str, str], Session] = {}
        self.lock = threading.Lock()

    def stamp(self) -> str:
        """What tells one dump from another at the same place."""
        found = os.stat(self.dump)
        return "%d-%d" % (found.st_size, found.st_mtime_ns)

    def session(self, name: str) -> Session:
        """The planner of a script.

        Those of an old dump end, and where there are too many the one that was asked longest ago.
        """
        key = (name, self.stamp())
        with self.lock:
            found = self.sessions.pop(key, None) or Session(
                self.program.words("session", self.dump), self.program.limits
            )
            self.sessions[key] = found
            old = [k for k in self.sessions if k[1] != key[1]]
            old += [k for k in self.sessions if k[1] == key[1]][:-MOST_SESSIONS]
            ended = [self.sessions.pop(k) for k in old]
        for it in ended:
            it.retire()
        return found

    def end(self) -> None:
        for session in self.sessions.values():
            session.retire()

    # ---- Calls of the page ----

    def do_open(self, asked: Asked) -> dict[str, Any]:
        """All that a page begins with."""
        return {
            **self.text(self.scripts.first),
            "files": self.scripts.names(),
            "dump": os.path.basename(self.dump),
            "stamp": self.stamp(),
            "kept": self.kept.page(),
            "names": self.pictures.names(),
            "pictures": self.pictures.known(),
        }

    def text(self, name: str) -> dict[str, Any]:
        data = self.scripts.read(name)
        return {"file": name, "script": data.decode("utf-8", "surrogateescape"), "version": version_of(data)}

    def do_read(self, asked: Asked) -> dict[str, Any]:
        return {**self.text(plain(asked, "file")), "files": self.scripts.names()}

    def do_version(self, asked: Asked) -> dict[str, Any]:
        """Whether script and dump are still those that the page knows."""
        return {"version": version_of(self.scripts.read(plain(asked, "file"))), "stamp": self.stamp()}

    def do_create(self, asked: Asked) -> dict[str, Any]:
        name, data = plain(asked, "file"), encoded(asked, "script")
        return {"file": name, "version": self.scripts.create(name, data), "files": self.scripts.names()}

    def do_run(self, asked: Asked) -> dict[str, Any]:
        """Saves the script where a version is given, and answers its lines and the questions behind it."""
        name, data, questions = plain(asked, "file"), encoded(asked, "script"), asked.get("ask", [])
        self.scripts.path(name)
        if (
            not isinstance(questions, list)
            or len(questions) > MOST_QUESTIONS
            or not all(isinstance(q, str) for q in questions)
        ):
            raise Refused(400, "ask is no list of questions")
        out = {}
        if asked.get("version") is not None:
            out["version"] = self.scripts.save(name, data, plain(asked, "version"))
            if out["version"] is None:
                return {"conflict": True, **self.text(name)}
        replies, answers = self.session(name).answers(
            lines_of(data), [q.encode("utf-8", "surrogateescape") for q in questions]
        )
        answered = time.time() * 1000
        said = {n: text_of(reply) for n, reply in replies.items()}
        return {**out, "at": answered, "replies": said, "answers": [text_of(answer) for answer in answers]}

    def do_keep(self, asked: Asked) -> dict[str, Any]:
        """Keeps how the page is left."""
        values = asked.get("values")
        if not isinstance(values, dict):
            raise Refused(400, "values is no object")
        self.kept.keep_page(values)
        return {}

    def do_progress(self, asked: Asked) -> dict[str, Any]:
        """How many bytes of the dump the planner of a script has read, where the system tells, and how many there are."""
        with self.lock:
            found = self.sessions.get((plain(asked, "file"), self.stamp()))
        return {
            "read": found.bytes_read() if found else None,
            "size": os.path.getsize(self.dump),
            "seconds": self.program.limits.seconds,
        }

    def do_stop(self, asked: Asked) -> dict[str, Any]:
        """Ends the planner of a script, whatever it is at."""
        with self.lock:
            found = self.sessions.get((plain(asked, "file"), self.stamp()))
        if found:
            found.stop()
        return {}

    def do_wish(self, asked: Asked) -> dict[str, Any]:
        """The lines of a table for a wish, behind the lines of the script; or why there are none."""
        words = asked.get("words")
        if (
            not isinstance(words, list)
            or len(words) > 400
            or not all(isinstance(w, str) and "\0" not in w and len(w) < 20000 for w in words)
        ):
            raise Refused(400, "words is no list of words")
        check_wish(words)
        name, lines = plain(asked, "file"), lines_of(encoded(asked, "script"))
        self.scripts.path(name)
        _, [answer] = self.session(name).answers(lines, [b" ".join([b"?wish", *(quoted(w) for w in words)])])
        if not answer or answer[0].startswith(b"? "):
            return {"said": decoded(b" ".join(line.strip() for line in answer[1:] or answer))}
        return {"lines": [decoded(line) for line in answer]}

    def do_page(self, asked: Asked) -> dict[str, Any]:
        """The script's plans as one page."""
        return self.program.run("page", self.dump, "/dev/stdin", given=encoded(asked, "script"))

    def do_certificate(self, asked: Asked) -> dict[str, Any]:
        """The certificate of the plans of a script, that script, and the last line of what the checker says of both."""
        script = encoded(asked, "script")
        made = self.program.run("prove", self.dump, "/dev/stdin", given=script)
        if made["status"] > 1:
            return made
        with tempfile.NamedTemporaryFile(suffix=".json") as certificate:
            certificate.write(made["text"].encode())
            certificate.flush()
            checked = self.program.run("check", self.dump, "/dev/stdin", "--cert", certificate.name, given=script)
        return {**made, "script": plain(asked, "script"), "verdict": checked["text"].rstrip().split("\n")[-1]}


def plain(asked: Asked, key: str) -> str:
    """A text of a request."""
    found = asked.get(key)
    if not isinstance(found, str):
        raise Refused(400, key + " is no text")
    return found


def encoded(asked: Asked, key: str) -> bytes:
    """A text of a request as the bytes that it was: a script that isn't UTF-8 goes back as it came."""
    try:
        return plain(asked, key).encode("utf-8", "surrogateescape")
    except UnicodeEncodeError:
        raise Refused(400, key + " is no text")


def lines_of(data: bytes) -> list[bytes]:
    """The lines of a script; a last one without a newline counts."""
    lines = data.split(b"\n")
    return lines[:-1] if lines[-1] == b"" else lines


def check_wish(words: list[str]) -> None:
    """A wish is goods and rates, and options that are known."""
    i = 0
    while i < len(words):
        if words[i].startswith("-"):
            if (
                words[i] not in OPTIONS
                or len(words) <= i + OPTIONS[words[i]]
                or any(w.startswith("-") for w in words[i + 1 : i + 1 + OPTIONS[words[i]]])
            ):
                raise Refused(400, "a wish has no such option")
            i += OPTIONS[words[i]]
        i += 1


def decoded(line: bytes) -> str:
    return line.decode("utf-8", "replace")


def text_of(reply: list[bytes]) -> str:
    return decoded(b"\n".join(reply))
