"""Refusals that name the file that they are about."""

from __future__ import annotations

from collections.abc import Iterator
from contextlib import contextmanager

from fail_star_tools.read.campaign_file import Refusal


@contextmanager
def naming(path: str, wanted: str) -> Iterator[None]:
    """A file that cannot be read, has bytes that are not text, or is refused: a refusal that begins with its path."""
    try:
        yield
    except UnicodeDecodeError:
        raise Refusal(f"{path}: expected {wanted}, found bytes that are not text") from None
    except OSError as error:
        raise Refusal(f"{path}: {error.strerror}") from None
    except Refusal as refusal:
        raise Refusal(f"{path}: {refusal}") from None
