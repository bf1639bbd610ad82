"""Numbers that users set."""

from __future__ import annotations

import math
from typing import TypeVar

Number = TypeVar("Number", int, float)


def positive(name: str, value: Number) -> Number:
    """The value of this setting, which has to be more than 0, and no infinity."""
    if not isinstance(value, (int, float)):
        raise TypeError(f"{name} has the type {type(value).__name__}: it has to be a number")
    if not (0 < value and math.isfinite(value)):
        raise ValueError(f"{name} is {value}: it has to be more than 0")
    return value


def not_negative(name: str, value: Number) -> Number:
    """The value of this setting, which has to be 0 or more, and no infinity."""
    return value if value == 0 else positive(name, value)
