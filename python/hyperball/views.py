"""What a notebook shows of a report, of vertices, and of several reports: HTML with nothing to load."""
from __future__ import annotations

import html
import math
from typing import TYPE_CHECKING, Any, Iterable, List, Optional, Sequence, Union

if TYPE_CHECKING:
    from hyperball.repeats import Estimate, Repeated, RepeatedVertex
    from hyperball.report import Report, Vertex, Vertices

_SHOWN = 10
_FIGURES = ("reachable", "harmonic", "closeness", "lin")


def of_report(report: Report) -> str:
    """A summary, the first ten by harmonic centrality, and the distances."""
    rows = [("vertices", f"{len(report.vertices):,}"), ("pairs of two vertices", f"{_pairs(report.supersteps):,.0f}"),
            ("mean distance", _told(report.mean_distance())), ("effective diameter", _told(report.effective_diameter())),
            ("supersteps", _ended([report]))]
    curve = of_distances(report.supersteps, report.effective_diameter())
    return _whole("Report", rows, _vertices(report.top("harmonic", _SHOWN)), curve)


def of_repeated(repeated: Repeated) -> str:
    """The same of several reports, each figure with its error."""
    rows = [("vertices", f"{len(repeated):,}"), ("seeds", str(len(repeated.reports))), ("mean distance", _told(repeated.mean_distance())),
            ("effective diameter", _told(repeated.effective_diameter())), ("supersteps", _ended(repeated.reports))]
    diameter = repeated.effective_diameter()
    curve = of_distances([estimate.mean for estimate in repeated.supersteps], diameter.mean if diameter else None)
    return _whole("Repeated", rows, _vertices(repeated.top("harmonic", _SHOWN)), curve)


def of_vertices(vertices: Sequence[Union[Vertex, RepeatedVertex]]) -> str:
    """The first ten, in their order, and how many there are."""
    more = len(vertices) - _SHOWN
    rest = f"<p>and {more:,} more</p>" if more > 0 else ""
    return f"<div>{_vertices(vertices[:_SHOWN])}{rest}</div>"


def told(report: Union[Report, Repeated]) -> str:
    """A line that sums it up."""
    parts = [f"{len(report.vertices):,} vertices"]
    parts += [f"{name} {_told(value)}" for name, value in (("mean distance", report.mean_distance()), ("effective diameter", report.effective_diameter()))]
    return ", ".join(parts)


def of_distances(totals: Sequence[float], diameter: Optional[float] = None) -> str:
    """The share of all reachable pairs within each distance, as a picture, and a line at the effective diameter."""
    if _pairs(totals) <= 0:
        return ""
    width, height, left, top = 280, 120, 40, 10
    steps = len(totals) - 1

    def at(step: float, share: float) -> str:
        return f"{left + width * step / steps:.1f},{top + height * (1 - share):.1f}"

    points = " ".join(at(i, total / totals[-1]) for i, total in enumerate(totals))
    mark = ""
    if diameter is not None:
        x = at(diameter, 0).split(",")[0]
        mark = (f'<line x1="{x}" x2="{x}" y1="{top}" y2="{top + height}" stroke="#b03a2e" stroke-dasharray="4 3">'
                f"<title>effective diameter {diameter:.2f}</title></line>")
    words = "".join(f'<text x="{x}" y="{y}" text-anchor="{anchor}">{word}</text>' for x, y, anchor, word in (
        (left - 5, top + 5, "end", "100 %"), (left - 5, top + height, "end", "0"), (left, top + height + 15, "middle", "0"),
        (left + width, top + height + 15, "middle", str(steps)), (left + width / 2, top + height + 15, "middle", "pairs within a distance")))
    return (f'<svg xmlns="http://www.w3.org/2000/svg" width="{left + width + 15}" height="{top + height + 25}" role="img" '
            f'font-size="11" font-family="sans-serif" fill="currentColor">{mark}'
            f'<path d="M{left} {top}V{top + height}H{left + width}" fill="none" stroke="currentColor"/>'
            f'<polyline points="{points}" fill="none" stroke="#1f77b4" stroke-width="2"/>{words}</svg>')


def text(value: Any) -> str:
    """Text for a page, of any label: escaped, cut where it is long, and without what UTF-8 has no bytes for."""
    plain = str(value).encode("utf-8", "backslashreplace").decode()
    return html.escape(plain if len(plain) <= 80 else plain[:79] + "\N{HORIZONTAL ELLIPSIS}")


def number(value: Union[float, Estimate]) -> str:
    """A figure; and its error, if it has one, with two digits that count."""
    if not isinstance(value, tuple):
        return f"{value:.6g}" if abs(value) < 10**5 else f"{value:,.0f}"
    if value.error <= 0:
        return number(value.mean)
    small = math.floor(math.log10(value.error)) - 1
    if small >= -6:
        return f"{value.mean:,.{max(0, -small)}f} ± {value.error:,.{max(0, -small)}f}"
    power = max(small + 1, math.floor(math.log10(abs(value.mean) or value.error)))
    return f"({value.mean / 10.0**power:.{power - small}f} ± {value.error / 10.0**power:.{power - small}f})e{power}"


def _told(value: Union[None, float, Estimate]) -> str:
    return "none" if value is None else f"{value:.2f}" if isinstance(value, float) else number(value)


def _ended(reports: Sequence[Report]) -> str:
    return f"{max(report.end for report in reports)}, {'stable' if all(report.stable for report in reports) else 'ended by the limit'}"


def _pairs(totals: Sequence[float]) -> float:
    return totals[-1] - totals[0] if totals else 0.0


def _vertices(vertices: Iterable[Union[Vertex, RepeatedVertex]]) -> str:
    rows: List[Sequence[str]] = [[text(vertex.label), *(number(getattr(vertex, name)) for name in _FIGURES)] for vertex in vertices]
    return _table(rows, ("label", *_FIGURES))


def _table(rows: Iterable[Sequence[str]], heads: Sequence[str] = ()) -> str:
    head = f"<thead><tr>{''.join(f'<th>{name}</th>' for name in heads)}</tr></thead>" if heads else ""
    body = "".join(f"<tr><th>{first}</th>{''.join(f'<td>{cell}</td>' for cell in cells)}</tr>" for first, *cells in rows)
    return f"<table>{head}<tbody>{body}</tbody></table>"


def _whole(name: str, rows: Iterable[Sequence[str]], vertices: str, curve: str) -> str:
    return (f'<div><b>{name}</b><div style="display:flex;flex-wrap:wrap;gap:2em;align-items:flex-start">'
            f"<div>{_table(rows)}{curve}</div><div>first by harmonic centrality{vertices}</div></div></div>")
