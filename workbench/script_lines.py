"""Lines of a script: their words, and what they may be. What a line means only the program knows."""
from __future__ import annotations

import re

# The commands that make an entry of the history.
EDITS = {
    *(b"grant", b"revoke", b"forbid", b"permit", b"milestone", b"unmilestone"),
    *(b"ingredient", b"product", b"unlock", b"time", b"enabled"),
    *(b"table", b"untable", b"row", b"unrow", b"price", b"want", b"import", b"surplus", b"power"),
}
# What leaves the planner as it was: all that may be asked besides the lines of the script.
QUESTIONS = {
    *(b"reach", b"why", b"missing", b"mask", b"list", b"milestones", b"summary", b"rate", b"solve"),
    *(b"?catalog", b"?state", b"?flow", b"?why-not", b"?limits", b"?wish"),
}
WORD = re.compile(rb'[ \t]*(?:"((?:[^"\\]|\\["\\ntr])*)"(?=[ \t]|\Z)|([^ \t"]+))')
ESCAPES = {b"n": b"\n", b"t": b"\t", b"r": b"\r"}


def words_of(line: bytes) -> list[bytes]:
    """The words of a line; none where it is a comment or badly quoted."""
    line = (line[:-1] if line.endswith(b"\r") else line).rstrip(b" \t")
    out: list[bytes] = []
    at = 0
    if line.lstrip(b" \t").startswith(b"#"):
        return []
    while at < len(line):
        found = WORD.match(line, at)
        if not found:
            return []
        out.append(found.group(2) or re.sub(rb"\\(.)", lambda m: ESCAPES.get(m.group(1), m.group(1)), found.group(1)))
        at = found.end()
    return out


def first_word(line: bytes) -> bytes:
    return (words_of(line[:200]) or words_of(line) or [b""])[0]


def quoted(word: str) -> bytes:
    """A word as a line has it."""
    escapes = {"\\": "\\\\", '"': '\\"', "\n": "\\n", "\t": "\\t", "\r": "\\r"}
    return ('"%s"' % "".join(escapes.get(c, c) for c in word)).encode("utf-8", "surrogateescape")


def is_refused(reply: list[bytes]) -> bool:
    return bool(reply) and re.match(rb"\S+ refused ", reply[0]) is not None


def is_plain(reply: list[bytes]) -> bool:
    """Whether a reply only says that the line was taken."""
    return len(reply) == 1 and reply[0].endswith((b" ok", b" held")) and reply[0].count(b" ") == 1
