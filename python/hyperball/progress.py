"""How far a run is along: a bar where tqdm is there and someone looks on, lines elsewhere."""
from __future__ import annotations

import re
import sys
from contextlib import suppress
from importlib import import_module
from typing import Any, Callable, Optional, Union

Told = Callable[[str], Any]
Progress = Union[None, bool, Told]


def told_by(progress: Progress, runs: int = 1) -> Optional[Told]:
    """What is called with each line of progress, if someone is to be told, of so many runs one after the other.

    Of True it is a bar on standard error, if tqdm is there and standard error is a terminal or a notebook's; else lines.
    """
    if progress is not True:
        return progress or None
    if sys.stderr.isatty() or "ipykernel" in sys.modules:
        with suppress(ImportError):
            return Bar(import_module("tqdm").tqdm, runs)
    return lambda line: print(f"hyperball: {line}", file=sys.stderr, flush=True)


class Bar:
    """A bar of the vertices that did not change at the last superstep. It is called with each line of progress."""

    def __init__(self, tqdm: Any, runs: int = 1) -> None:
        self._bar, self._run, self._runs = tqdm(total=None, unit=" vertices", file=sys.stderr), 1, runs

    def __call__(self, line: str) -> None:
        at = re.fullmatch(r"superstep (\d+), (\d+) of (\d+) vertices changed", line)
        if at:
            step, changed, vertices = map(int, at.groups())
            self._bar.total, self._bar.n = vertices, vertices - changed
            line = f"superstep {step}"
        self._bar.set_description(line if self._runs == 1 else f"run {self._run} of {self._runs}, {line}")
        if line == "the report is written":
            self._run += 1
            if self._run > self._runs:
                self._bar.close()
