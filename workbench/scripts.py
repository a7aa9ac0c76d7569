"""The scripts of a folder. Each is saved whole or not at all, and only over the text that whoever saves it has seen."""
from __future__ import annotations

import contextlib
import ctypes
import hashlib
import os
import re
import tempfile
import threading
from typing import Iterator

from faults import Refused

try:
    import fcntl
except ImportError:  # Windows: then two workbenches on one folder aren't kept apart
    fcntl = None  # type: ignore[assignment]

MOST_SCRIPT = 16 << 20
MOST_FILES = 200
# A name is no path: no slash, no leading dot, and the ending of a text.
NAME = re.compile(r"(?![. ])[^/\\\0-\x1f\x7f]{1,100}\.txt\Z")
PREFIX = ".workbench-"


def version_of(data: bytes) -> str:
    """The version of a script: the sum of its bytes, so that an editor beside the workbench counts as another tab."""
    return hashlib.sha256(data).hexdigest()[:20]


class Scripts:
    """The scripts of a folder, by name."""

    def __init__(self, folder: str, first: str) -> None:
        self.folder, self.first = os.path.realpath(folder), first
        self.lock = threading.Lock()

    def path(self, name: str) -> str:
        """The path of a name. A name that is none, and what is no plain file of the folder, is refused."""
        if name != self.first and not NAME.match(name):
            raise Refused(400, "a script's name ends with .txt and has no slash")
        path = os.path.join(self.folder, name)
        if os.path.islink(path) or (os.path.exists(path) and not os.path.isfile(path)):
            raise Refused(404, "there is no such script")
        return path

    def names(self) -> list[str]:
        """The names of the scripts that are there, and of the one that the workbench was started with."""
        with os.scandir(self.folder) as found:
            there = [it.name for it in found if NAME.match(it.name) and it.is_file(follow_symlinks=False)]
        return sorted({*there[:MOST_FILES], self.first})

    def read(self, name: str) -> bytes:
        """The bytes of a script: none where there is no file yet."""
        try:
            with open(self.path(name), "rb") as file:
                data = file.read(MOST_SCRIPT + 1)
        except FileNotFoundError:
            return b""
        if len(data) > MOST_SCRIPT:
            raise Refused(413, "the script has more than %d bytes" % MOST_SCRIPT)
        return data

    def save(self, name: str, data: bytes, version: str) -> str | None:
        """Saves a script over that of the version, and answers the new version.

        Where the file is another by now, it is left as it is, and None is answered.
        """
        if len(data) > MOST_SCRIPT:
            raise Refused(413, "the script has more than %d bytes" % MOST_SCRIPT)
        path = self.path(name)
        with self.lock, alone_in(self.folder):
            old = self.read(name)
            if version_of(old) != version:
                return None
            if old != data and not put_in_place(path, data, version):
                return None
            return version_of(data)

    def create(self, name: str, data: bytes) -> str:
        """A new script. A name that is there already is refused."""
        path = self.path(name)
        with self.lock, alone_in(self.folder):
            if os.path.lexists(path) or not put_in_place(path, data, version_of(b"")):
                raise Refused(409, "there is a script of this name")
        return version_of(data)


@contextlib.contextmanager
def alone_in(folder: str) -> Iterator[None]:
    """Keeps other workbenches of the folder out while a script is saved."""
    holder = os.open(folder, os.O_RDONLY)
    try:
        if fcntl:
            fcntl.flock(holder, fcntl.LOCK_EX)
        yield
    finally:
        os.close(holder)


def put_in_place(path: str, data: bytes, version: str) -> bool:
    """Writes beside, syncs, and puts it in the place of the file.

    What stood there is looked at then: where an editor wrote meanwhile, or put a file of its own there, its text comes
    back, and False is answered.
    """
    folder = os.path.dirname(path)
    made, new = tempfile.mkstemp(prefix=PREFIX, dir=folder)
    held = new + "~"
    try:
        with os.fdopen(made, "wb") as file:
            file.write(data)
            file.flush()
            os.fsync(file.fileno())
        os.chmod(new, mode_of(path))
        if not (took_place(new, path, held, data, version) if os.path.lexists(path) else stood_alone(new, path)):
            return False
        sync(folder)
        return True
    finally:
        for path in (new, held):
            with contextlib.suppress(FileNotFoundError):
                os.unlink(path)


def stood_alone(new: str, path: str) -> bool:
    """Puts a file where none is; False where one is there by then."""
    try:
        os.link(new, path)
    except FileExistsError:
        return False
    except OSError:  # (on disks that know no second names)
        os.replace(new, path)
    return True


def took_place(new: str, path: str, held: str, data: bytes, version: str) -> bool:
    """Puts a file in the place of that of the version; False where another stood there, which is there again then."""
    if not exchanged(new, path):
        return replaced(new, path, held, version)
    put, known = version_of(data), version
    while True:
        with open(new, "rb") as file:
            found = version_of(file.read())
        if found == known:
            return known == version
        # What came out goes back, and what was put in comes out; if it isn't that, an editor was there once more,
        # whose text goes back, too.
        put, known = found, put
        if not exchanged(new, path):
            stood_alone(new, path)
            return False


def replaced(new: str, path: str, held: str, version: str) -> bool:
    """The same where no two files can be exchanged.

    What stood there is held by a second name until it is known to be that of the version. So an editor that writes into
    the file is noticed, but not one that puts another file there at the very moment.
    """
    with contextlib.suppress(OSError):  # (there are disks that know no second names)
        os.link(path, held)
    os.replace(new, path)
    if os.path.exists(held):
        with open(held, "rb") as file:
            theirs = file.read()
        if version_of(theirs) != version:
            os.replace(held, path)
            return False
    return True


def exchanged(one: str, other: str) -> bool:
    """Whether two files took each other's place in one step; where the system can't do that all is as it was."""
    try:
        return bool(ctypes.CDLL(None).renameat2(-100, os.fsencode(one), -100, os.fsencode(other), 2) == 0)
    except (AttributeError, OSError, TypeError):
        return False


def mode_of(path: str) -> int:
    """The permissions of the file that is there, or those of a new one."""
    try:
        return os.stat(path).st_mode & 0o777
    except FileNotFoundError:
        return 0o644


def sync(folder: str) -> None:
    """The folder's own entries, too, survive a cut of power."""
    holder = os.open(folder, os.O_RDONLY)
    try:
        os.fsync(holder)
    finally:
        os.close(holder)
