"""For values that may be missing, at places where the caller has seen that they are there."""

from __future__ import annotations

from typing import Optional, TypeVar

Value = TypeVar("Value")


def known(value: Optional[Value]) -> Value:
    """The value, which is not None."""
    assert value is not None
    return value
