"""The SHA-256 of a file, of whatever size."""

from __future__ import annotations

import hashlib

from fail_star_tools.read import regular
from fail_star_tools.read.campaign_file import Refusal

BLOCK = 1 << 20


def sha256_of(path: str) -> str:
    """The SHA-256 of a file, read block by block."""
    digest = hashlib.sha256()
    try:
        with regular.opened(path) as file:
            while block := file.read(BLOCK):
                digest.update(block)
    except OSError as error:
        raise Refusal(f"{path}: {error.strerror}") from None
    return digest.hexdigest()
