"""The date of a page."""

from __future__ import annotations

import os
import time

from fail_star_tools.read.campaign_file import Refusal


def date_of() -> str:
    """The date of a page: now, or that of the environment."""
    word = os.environ.get("SOURCE_DATE_EPOCH")
    try:
        moment = time.time() if word is None else int(word)
        return time.strftime("%Y-%m-%d %H:%M UTC", time.gmtime(moment))
    except (ValueError, OverflowError, OSError):
        raise Refusal(f"SOURCE_DATE_EPOCH: expected seconds since 1970, found {(word or '')[:60]!r}") from None
