"""Finds out why a campaign file cannot be read or written, or what a file is:
for explain.py."""

from __future__ import annotations

import errno
import fcntl
import os
import stat
from pathlib import Path

from fail_star_tools.read import campaign_file, regular
from fail_star_tools.read.campaign_file import Refusal

FIRST_BYTES = 64  # of a file, which tell its kind
LEAST_ROOM = 1 << 20  # bytes that a page of rows and what a file system adds need at most


def cause_of(keep: str, image: str | None) -> str | None:
    """The cause of status 5 that holds now, or None."""
    if not keep:
        return "KEEP is an empty name."
    path = Path(keep)
    folder = path.parent
    try:
        if path.is_dir():
            return f"{keep} is a folder."
        if not folder.is_dir():
            return f"the folder {folder} does not exist: make it, or take another name."
        if not path.exists():
            return cause_of_folder(folder)
        if not stat.S_ISREG(path.stat().st_mode):
            return f"{keep} is not a regular file."
        if image is not None and os.path.exists(image) and os.path.samefile(keep, image):
            return f"{keep} is the image itself: give the campaign file another name."
    except (OSError, ValueError) as error:
        return f"{keep}: {error}."
    if not os.access(keep, os.R_OK | os.W_OK):
        return f"{keep} may not be read and written by you (its mode is {stat.filemode(path.stat().st_mode)})."
    if is_held(keep):
        return f"another command works on {keep}: wait for its end, or stop it."
    return cause_of_room(folder)


def cause_of_folder(folder: Path) -> str | None:
    """The reason why no file can be made in a folder."""
    if not os.access(folder, os.W_OK | os.X_OK):
        return f"you may not write to the folder {folder}."
    return cause_of_room(folder)


def cause_of_room(folder: Path) -> str | None:
    """Whether the disk is full."""
    room = os.statvfs(folder)
    if room.f_bavail * room.f_frsize < LEAST_ROOM:
        return f"the disk of {folder} is full: {room.f_bavail * room.f_frsize} bytes are left."
    return None


def has_journal(database: str) -> bool:
    """Whether a program that stopped in a transaction left a journal beside a database."""
    try:
        return os.path.getsize(f"{os.path.realpath(database)}-journal") > 0
    except OSError:
        return False


def is_held(keep: str) -> bool:
    """Whether another command holds a lock on a file."""
    try:
        with regular.opened(keep) as file:
            fcntl.flock(file, fcntl.LOCK_EX | fcntl.LOCK_NB)
    except OSError as error:
        return error.errno in (errno.EWOULDBLOCK, errno.EACCES)
    return False


def kind_of(first: bytes) -> str | None:
    """The kind of a file by its first bytes, or None."""
    if first[:4] == b"\x7fELF":
        return "an ELF file"
    if campaign_file.is_campaign(first):
        return "a campaign file"
    if first.startswith(b"SQLite format 3"):
        return "an SQLite database"
    if first.startswith(b"!<arch>\n"):
        return "an archive of object files"
    if is_text(first):
        return f"a text that begins with {first.splitlines()[0][:40].decode('ascii')!r}"
    return None


def is_text(first: bytes) -> bool:
    """Whether the first bytes of a file are ASCII text."""
    return bool(first) and all(32 <= byte < 127 or byte in b"\t\r\n" for byte in first)


def what_is(keep: str) -> str:
    """The kind of a file that is not a campaign file, as a warning before it is overwritten."""
    try:
        with regular.opened(keep) as file:
            first = file.read(FIRST_BYTES)
            size = os.fstat(file.fileno()).st_size
    except OSError as error:
        return f"{keep}: {error.strerror}."
    if campaign_file.is_campaign(first):
        kind = "a campaign file whose creation was interrupted, without any outcome"
    else:
        kind = kind_of(first) or "no campaign file"
    return f"{keep} is {kind}, of {size} bytes. `run --fresh` overwrites it: its content is lost."


def is_missing(keep: str) -> bool:
    """Whether there is no campaign file of this name."""
    return not os.path.exists(keep)


def options_of(keep: str | None) -> list[str]:
    """The options of a campaign file, if it can be read."""
    try:
        return campaign_file.read(keep).card.options() if keep else []
    except Refusal:
        return []
