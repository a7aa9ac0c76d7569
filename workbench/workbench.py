#!/usr/bin/env python3
"""The workbench: plans by clicking, in the browser, on the answers of the proved program (docs/WORKBENCH.md)."""
from __future__ import annotations

import argparse
import errno
import os
import secrets
import sys
import threading
import webbrowser

from bench import Bench
from faults import Refused
from kept import Kept
from pictures import is_script_output
from server import ADDRESS, Server

HERE = os.path.dirname(os.path.abspath(__file__))
PORT, MORE_PORTS = 8197, 20  # where none is named, and how many behind a taken one are tried
PROGRAM = os.path.join(os.path.dirname(HERE), "crates", "factoplan", "out", "factoplan")


def asked_words(words: list[str]) -> argparse.Namespace:
    p = argparse.ArgumentParser(
        prog="factoplan workbench",
        description="Plans by clicking, in the browser, on the answers of the proved program.",
    )
    p.add_argument("dump", metavar="DUMP", help="the file data-raw-dump.json that `factorio --dump-data` writes")
    p.add_argument(
        "script",
        metavar="SCRIPTS",
        nargs="?",
        default="factory.txt",
        help="the script that is edited, made where it isn't there, or a folder of scripts (factory.txt where none is named)",
    )
    p.add_argument("--program", metavar="PATH", default=PROGRAM, help="the built program")
    p.add_argument(
        "--script-output",
        metavar="DIR",
        help="the game's folder with its pictures and names (that of DUMP, if it is one)",
    )
    p.add_argument(
        "--port",
        type=int,
        help="a port of 127.0.0.1, or one of the next where it is taken; 0 is any free one (where none is named, "
        "that of the last time in this folder, or %d)" % PORT,
    )
    p.add_argument(
        "--seconds", type=int, default=20, help="the most for an answer of the program (20 where none are named)"
    )
    p.add_argument("--no-browser", action="store_true", help="only prints the address")
    return p.parse_args(words)


def place_of(script: str) -> tuple[str, str]:
    """The folder of the scripts, and the name of the first."""
    if os.path.isdir(script):
        texts = sorted(name for name in os.listdir(script) if name.endswith(".txt") and not name.startswith("."))
        return script, (texts or ["factory.txt"])[0]
    path = os.path.realpath(script)
    return os.path.dirname(path), os.path.basename(path)


def output_of(asked: argparse.Namespace) -> str | None:
    """The game's folder script-output: the named one, or that of the dump, where the game left both."""
    beside = os.path.dirname(os.path.realpath(asked.dump))
    named: str | None = asked.script_output
    return named or (beside if is_script_output(beside) else None)


def server_of(port: int | None, bench: Bench, kept: Kept) -> Server:
    """A server at the port, or at one of the next where it is taken.

    Where no port is named, it stands where the last one of the folder did, with its token: a page that is still open
    finds it again.
    """
    last, token = kept.address(), secrets.token_urlsafe(24)
    first = port if port is not None else last[0] if last else PORT
    tried = [first] if first == 0 else list(range(first, min(first + MORE_PORTS, 65535) + 1)) or [first]
    for it in tried:
        try:
            server = Server(it, bench, last[1] if last and it == last[0] else token)
        except OSError as fault:
            if fault.errno != errno.EADDRINUSE or it == tried[-1]:
                fault.filename = "%s:%d" % (ADDRESS, it)
                raise
            continue
        if it != first:
            sys.stderr.write("factoplan: port %d is taken, so it is %d\n" % (first, it))
        return server
    raise AssertionError("no port was tried")


def main(words: list[str]) -> int:
    asked = asked_words(words)
    try:
        with open(asked.dump, "rb"):
            folder, first = place_of(asked.script)
        os.scandir(folder).close()
        bench = Bench(asked.dump, folder, first, asked.program, output_of(asked), asked.seconds)
        bench.scripts.read(first)
        server = server_of(asked.port, bench, bench.kept)
    except OverflowError:
        sys.stderr.write("factoplan: a port is a number from 0 to 65535\n")
        return 2
    except OSError as fault:
        sys.stderr.write("factoplan: %s: %s\n" % (fault.filename, fault.strerror))
        return 4
    except Refused as fault:
        sys.stderr.write("factoplan: %s: %s\n" % (asked.script, fault.why))
        return 4
    if not bench.program.is_there():
        sys.stderr.write("factoplan: %s: no program is there\n" % asked.program)
        return 4
    # Behind # the token is never sent: it stands in no log, and no other page is told it.
    address = "http://%s:%d/#" % (ADDRESS, server.server_port)
    bench.kept.keep_address(address + server.token)
    print(address + server.token, flush=True)
    if not asked.no_browser:
        # (a browser of the terminal stays in the foreground, and is answered meanwhile)
        threading.Thread(target=webbrowser.open, args=["%sonce-%s" % (address, server.entry)], daemon=True).start()
    try:
        server.serve_forever()
    finally:
        bench.end()
    return 0


if __name__ == "__main__":
    try:
        sys.exit(main(sys.argv[1:]))
    except KeyboardInterrupt:
        sys.exit(0)
