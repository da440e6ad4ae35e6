"""The options of a run, checked before a program is started: mistakes are Python's own errors.

>>> whole("log2m", 8.0)
8
>>> whole("seed", -1)
Traceback (most recent call last):
ValueError: seed is from 0 to 18446744073709551615, not -1
"""
from __future__ import annotations

import operator
from numbers import Real
from typing import Any, Tuple

_RANGES = {"log2m": (4, 10), "seed": (0, 2**64 - 1), "threads": (0, 1024), "parts": (1, 64), "limit": (1, 4096), "keep": (0, 4096),
           "replicas": (1, 4)}

_DELIMITERS = {"\t": "tab", ",": "comma", " ": "space"}


def whole(name: str, value: Any) -> int:
    """The value of an option that is a whole number, of any type. TypeError if it is no number, ValueError if it is another."""
    least, most = _RANGES[name]
    try:
        number = operator.index(value)
    except TypeError:
        if not isinstance(value, Real):
            raise TypeError(f"{name} is a whole number, not {value!r}") from None
        if value != value // 1:  # (as also of nan; int of an infinity is an error of another kind)
            raise ValueError(f"{name} is a whole number, not {value!r}") from None
        number = int(value)
    if not least <= number <= most:
        raise ValueError(f"{name} is from {least} to {most}, not {value!r}")
    return number


def estimate_of(value: Any) -> str:
    """The estimate of this name. ValueError if there is none."""
    if value not in ("corrected", "raw"):
        raise ValueError(f"the estimate is corrected or raw, not {value!r}")
    return str(value)


def delimiter_of(value: Any) -> str:
    """The name of a delimiter that is given by its name or itself. ValueError if it is none."""
    name = _DELIMITERS.get(value, value)
    if name not in _DELIMITERS.values():
        raise ValueError(f"the delimiter is tab, comma or space, not {value!r}")
    return str(name)


def top_of(figure: Any, count: Any) -> Tuple[str, int]:
    """The figure and the number that ``top`` is asked for, in either order: ``top("lin", 3)``, ``top(3)``, ``top(3, "lin")``."""
    if not isinstance(figure, str):
        figure, count = count if isinstance(count, str) else "harmonic", figure
    number = operator.index(count)
    if number < 0:
        raise ValueError(f"the number of vertices is 0 or more, not {number}")
    return figure, number
