"""What the workbench keeps beside the scripts, in a folder of its own: its address, and how the page was left.

So a server that is started anew stands where the last one of the folder stood, if its port is free, and a page of
another port begins as the last one was left.
"""
from __future__ import annotations

import contextlib
import json
import os
import re
import stat
import tempfile
import threading
from typing import Any, Dict

FOLDER, ADDRESS, PAGE = ".workbench", "address", "page.json"
MOST_PAGE = 16 << 20  # bytes of what the page keeps; what was kept longest ago goes first
LINE = re.compile(r"http://127\.0\.0\.1:([1-9][0-9]{0,4})/#([A-Za-z0-9_-]{32,100})\n\Z")


class Kept:
    """The folder. Where none can be made, nothing is kept."""

    def __init__(self, scripts: str) -> None:
        self.folder = os.path.join(os.path.realpath(scripts), FOLDER)
        self.lock = threading.Lock()

    def address(self) -> tuple[int, str] | None:
        """The port and the token of the last server, where nobody else could read them."""
        found = LINE.match(self.read(ADDRESS).decode("ascii", "replace"))
        return (int(found.group(1)), found.group(2)) if found else None

    def keep_address(self, address: str) -> None:
        self.write(ADDRESS, (address + "\n").encode())

    def page(self) -> Dict[str, Any]:
        """What the page kept, by its keys."""
        try:
            found = json.loads(self.read(PAGE))
        except (ValueError, RecursionError):
            return {}
        return found if isinstance(found, dict) else {}

    def keep_page(self, values: Dict[str, Any]) -> None:
        """Keeps some values more; None is no longer kept."""
        with self.lock:
            page = {key: value for key, value in self.page().items() if key not in values}
            page.update((key, value) for key, value in values.items() if value is not None)
            while len(data := json.dumps(page).encode()) > MOST_PAGE and page:
                del page[next(iter(page))]
            self.write(PAGE, data)

    def read(self, name: str) -> bytes:
        """The bytes of a file of ours that nobody else can read; none where there is no such file."""
        try:
            opened = os.open(os.path.join(self.folder, name), os.O_RDONLY | getattr(os, "O_NOFOLLOW", 0))
        except OSError:
            return b""
        with os.fdopen(opened, "rb") as file:
            return file.read(MOST_PAGE) if is_ours_alone(os.fstat(opened)) else b""

    def write(self, name: str, data: bytes) -> None:
        """Writes a file whole or not at all, for nobody else to read."""
        with contextlib.suppress(OSError):
            if not os.path.isdir(self.folder):
                os.mkdir(self.folder, 0o700)
            made, new = tempfile.mkstemp(dir=self.folder)
            try:
                with os.fdopen(made, "wb") as file:
                    file.write(data)
                    if not is_ours_alone(os.fstat(made)):
                        return
                os.replace(new, os.path.join(self.folder, name))
            finally:
                with contextlib.suppress(FileNotFoundError):
                    os.unlink(new)


def is_ours_alone(found: os.stat_result) -> bool:
    """Whether a file is a plain one of ours, and others can't read it (where the system tells)."""
    if not stat.S_ISREG(found.st_mode):
        return False
    return os.name == "nt" or (found.st_uid == os.geteuid() and not found.st_mode & 0o077)
