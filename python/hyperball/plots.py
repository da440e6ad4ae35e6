"""Pictures by matplotlib, if it is there. No window is opened: ``savefig`` writes a picture, and a notebook shows it."""
from __future__ import annotations

import io
import os
from importlib import import_module
from typing import TYPE_CHECKING, Any, Optional, Sequence

if TYPE_CHECKING:
    from hyperball.repeats import Estimate, Repeated
    from hyperball.report import Report

_BLUE, _RED = "#1f5a99", "#b03a2e"


def of_report(report: Report) -> Any:
    """The neighbourhood function with its effective diameter, and harmonic centrality by rank."""
    figure, left, right = _figure()
    left.plot(range(len(report.supersteps)), report.supersteps, marker="o", color=_BLUE)
    _mark(left, report.effective_diameter())
    harmonic = sorted(report.vertices.harmonic, reverse=True)
    right.plot(range(1, len(harmonic) + 1), harmonic, color=_BLUE)
    _name(left, right, len(harmonic))
    return figure


def of_repeated(repeated: Repeated) -> Any:
    """The same of means, with their errors: as bars, or as a band where there are more than 100."""
    figure, left, right = _figure()
    _draw(left, range(len(repeated.supersteps)), repeated.supersteps)
    diameter = repeated.effective_diameter()
    _mark(left, diameter.mean if diameter else None, f" ± {diameter.error:.2f}" if diameter else "")
    harmonic = sorted(repeated.figures("harmonic"), reverse=True)
    _draw(right, range(1, len(harmonic) + 1), harmonic)
    _name(left, right, len(harmonic))
    return figure


def check(path: str) -> None:
    """ImportError if matplotlib is not there; ValueError if it has no pictures of this file's kind."""
    kinds = _empty().canvas.get_supported_filetypes()
    if os.path.splitext(path)[1][1:].lower() not in ("", *kinds):
        raise ValueError(f"{path} is no picture: its name ends in .png, .svg or .pdf")


def _empty() -> Any:
    try:
        return import_module("matplotlib.figure").Figure(figsize=(10, 4), layout="constrained")
    except ImportError:
        raise ImportError("a plot wants matplotlib; on Debian: apt-get install python3-matplotlib") from None


# A figure, and its two halves.
def _figure() -> Any:
    figure = _empty()

    def png() -> bytes:
        picture = io.BytesIO()
        figure.savefig(picture, format="png", dpi=100)
        return picture.getvalue()

    figure._repr_png_ = png  # (a notebook asks for it)
    return (figure, *figure.subplots(1, 2))


def _draw(axes: Any, places: Sequence[int], estimates: Sequence[Estimate]) -> None:
    means, errors = [estimate.mean for estimate in estimates], [estimate.error for estimate in estimates]
    if len(means) <= 100:
        axes.errorbar(places, means, yerr=errors, marker="o", markersize=4, capsize=3, color=_BLUE)
        return
    axes.plot(places, means, color=_BLUE)
    low, high = ([mean + sign * error for mean, error in zip(means, errors)] for sign in (-1, 1))
    axes.fill_between(places, low, high, color=_BLUE, alpha=0.3, linewidth=0)


def _mark(axes: Any, diameter: Optional[float], error: str = "") -> None:
    if diameter is not None:
        axes.axvline(diameter, color=_RED, linestyle="--", label=f"effective diameter {diameter:.2f}{error}")
        axes.legend(loc="lower right")


def _name(left: Any, right: Any, vertices: int) -> None:
    left.set(title="Neighbourhood function", xlabel="distance", ylabel="pairs within the distance", ylim=(0, None))
    right.set(title="Harmonic centrality", xlabel="rank of the vertex", ylabel="estimate", ylim=(0, None))
    if vertices > 100:
        right.set_xscale("log")
