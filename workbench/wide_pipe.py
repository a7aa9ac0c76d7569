"""The pipes of a program, and how they take a long answer whole."""
from __future__ import annotations

import contextlib
from typing import IO

try:
    import fcntl
except ImportError:  # Windows: then pipes stay as they are
    fcntl = None  # type: ignore[assignment]

WIDE = 1 << 20  # bytes of the pipe
SET_SIZE = 1031  # Linux's F_SETPIPE_SZ, which Python names from 3.10 on


def pipe_of(pipe: IO[bytes] | None) -> IO[bytes]:
    """A pipe that a program was started with."""
    assert pipe is not None
    return pipe


def widen(pipe: IO[bytes]) -> None:
    """Has a pipe take a long answer whole, so that the program needn't wait for its reader.

    The system may lend less than that: then the pipe stays as it is.
    """
    if fcntl:
        with contextlib.suppress(OSError):
            fcntl.fcntl(pipe, SET_SIZE, WIDE)
