#!/usr/bin/env python3
"""Writes a walk: the comments of scripts as text, and their commands with the replies to them.

    make_walk.py SCRIPT REPORT [SCRIPT REPORT ..] > docs/WALK.md

In a script a line that begins with ## is a heading and one that begins with # is text.
"""
import sys


def replies_of(report):
    """The lines of each reply, by the number of the script's line."""
    replies = {}
    for line in report.splitlines():
        if not line.startswith("  "):
            number = int(line.split(" ", 1)[0])
            replies[number] = []
        replies[number].append(line)
    return replies


def walk(script, replies):
    text, block = [], []

    def end_block():
        if block:
            out.append("```\n%s\n```" % "\n".join(block))
            block.clear()

    def end_text():
        if text:
            out.append("\n".join(text))
            text.clear()

    out = []
    for number, line in enumerate(script.splitlines(), 1):
        if line.startswith("## "):
            end_block()
            end_text()
            out.append(line)
        elif line.startswith("# "):
            end_block()
            text.append(line[2:])
        elif line:
            end_text()
            block.append("> " + line)
            block.extend(replies.get(number, []))
        else:
            end_text()
    end_block()
    end_text()
    return "\n\n".join(out)


def main():
    paths = sys.argv[1:]
    pairs = list(zip(paths[::2], paths[1::2]))
    made_of = ", and from ".join(f"`{script}` and `{report}`" for script, report in pairs)
    print(
        f"# A walk\n\n(Made by `tools/make_walk.py` from {made_of}.\nBehind `>` stands a line of the script, and under it the "
        "reply, which begins with the line's number.)\n"
    )
    for number, pair in enumerate(pairs):
        script, report = (open(path, encoding="utf-8").read() for path in pair)
        print("\n" * (number > 0) + walk(script, replies_of(report)))


if __name__ == "__main__":
    main()
