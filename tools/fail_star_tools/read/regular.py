"""Opens files for reading, for the tools. A pipe is refused, so that no tool waits for one that nobody writes to.

What the caller has opened already may be a pipe: standard input, and the files /dev/fd/N, which a shell passes for
`<(COMMAND)`. Every failure is an OSError.
"""

from __future__ import annotations

import errno
import io
import os
import stat
from typing import IO, TextIO

OPENED_BY_CALLER = ("/dev/stdin", "/dev/fd/", "/proc/self/fd/")


def opened(path: str, named: bool = True) -> IO[bytes]:
    """A file of bytes. If the command line does not name it, it must be regular, and no link."""
    if is_callers(path):
        return open(path, "rb")
    handle = os.open(path, os.O_RDONLY | os.O_NONBLOCK | (0 if named else os.O_NOFOLLOW))
    try:
        refuse_other(path, os.fstat(handle).st_mode, devices=named)
        os.set_blocking(handle, True)
        return open(handle, "rb")
    except BaseException:
        os.close(handle)
        raise


def opened_or_input(path: str) -> IO[bytes]:
    """The same, where `-` is standard input."""
    return open(0, "rb", closefd=False) if path == "-" else opened(path)


def lines_of(file: IO[bytes]) -> TextIO:
    """The lines of a file of ASCII text. Bytes that are not ASCII are shown by their numbers."""
    return io.TextIOWrapper(file, encoding="ascii", errors="backslashreplace")


def look_at(path: str) -> None:
    """Refuses a pipe before a program opens it. What else is wrong with a file, the program says."""
    if not is_callers(path) and os.path.exists(path) and not os.path.isdir(path):
        refuse_other(path, os.stat(path).st_mode, devices=True)


def is_callers(path: str) -> bool:
    """Whether the caller has opened a file of this name already."""
    return path.startswith(OPENED_BY_CALLER)


def refuse_other(path: str, mode: int, devices: bool = False) -> None:
    """Refuses what is not a regular file; or, with `devices`, neither that nor a device such as /dev/null."""
    if stat.S_ISDIR(mode):
        raise IsADirectoryError(errno.EISDIR, os.strerror(errno.EISDIR), path)
    if not (stat.S_ISREG(mode) or devices and stat.S_ISCHR(mode)):
        raise OSError(errno.EINVAL, "Not a regular file", path)
