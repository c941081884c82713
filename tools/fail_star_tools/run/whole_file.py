"""Writes files whole, for the tools: by a new name in the same folder, and a rename."""

from __future__ import annotations

import errno
import os
import stat
import tempfile
from collections.abc import Callable, Iterable

from fail_star_tools import words
from fail_star_tools.read import regular
from fail_star_tools.read.campaign_file import Refusal

STANDARD_OUTPUT, STANDARD_ERROR = ("/dev/stdout", "/dev/fd/1", "/proc/self/fd/1"), "/dev/stderr"


def write(path: str, text: str) -> None:
    """Writes a file that the user named, which afterwards has all of the text or is as it was. If the name is that of
    a link, the file that it points to is written. A device, and what the caller has opened, is written to directly."""
    if path in STANDARD_OUTPUT:
        words.put(text)
    else:
        writing(path, lambda: put(os.path.realpath(path), (text,)) if is_replaced(path) else put_directly(path, text))


def replace(path: str, texts: Iterable[str]) -> None:
    """Writes a file that the user did not name, with these texts one after the other. What else has this name, such as
    a link, is replaced and not followed."""
    writing(path, lambda: put(path, texts))


def writing(path: str, how: Callable[[], None]) -> None:
    """Writes, and refuses with the name of the file."""
    try:
        if not path:
            raise FileNotFoundError(errno.ENOENT, "expected the name of a file, found none")
        how()
    except OSError as error:
        raise Refusal(f"{path}: {error.strerror}") from None


def is_replaced(path: str) -> bool:
    """Whether a file of this name is missing or regular. A pipe, which may have no reader, and a folder are refused."""
    if regular.is_callers(path) or path == STANDARD_ERROR:
        return False
    if not os.path.exists(path):
        return True
    mode = os.stat(path).st_mode
    regular.refuse_other(path, mode, devices=True)
    return not stat.S_ISCHR(mode)


def put(place: str, texts: Iterable[str]) -> None:
    """Writes a new file, and gives it the name. It has the permissions of the file that it replaces."""
    folder, name = os.path.split(place)
    handle, beside = tempfile.mkstemp(prefix=f".{name[:60]}.", dir=folder or ".")
    try:
        with open(handle, "w", encoding="utf-8") as file:
            file.writelines(texts)
        os.chmod(beside, mode_for(place))
        os.replace(beside, place)
    except BaseException:
        os.unlink(beside)
        raise


def put_directly(path: str, text: str) -> None:
    """Writes to a device, or to what the caller has opened."""
    with open(path, "w", encoding="utf-8") as file:
        file.write(text)


def mode_for(place: str) -> int:
    """The permissions of a file of this name, if there is one, or those of a new one."""
    try:
        mode = os.lstat(place).st_mode
    except FileNotFoundError:
        return 0o666 & ~mask()
    return stat.S_IMODE(mode) if stat.S_ISREG(mode) else 0o666 & ~mask()


def mask() -> int:
    """The permissions that a new file does not get."""
    value = os.umask(0o077)
    os.umask(value)
    return value
