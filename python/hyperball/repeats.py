"""Several runs of one graph, each under another seed: the mean of each figure, and its standard error."""
from __future__ import annotations

import math
from array import array
from collections.abc import Sequence
from importlib import import_module
from typing import Any, Callable, Iterable, Iterator, List, NamedTuple, Optional, Union, overload

from hyperball import bars, plots, views
from hyperball.options import top_of
from hyperball.progress import told_by
from hyperball.report import FIGURES, UNIT, Report
from hyperball.runs import run
from hyperball.sources import is_read_once

_COLUMNS = (*FIGURES, "distances")


class Estimate(NamedTuple):
    """The mean of a figure over the seeds, and the standard error of that mean: the greater of its two parts.

    ``spread`` is how far the seeds are apart: their standard deviation, divided by the root of their number. ``counters`` is
    what that mean errs by on average, by the size of the set (``hyperball.bars``); where most seeds agree it is the greater.
    """

    mean: float
    error: float
    spread: float
    counters: float


class RepeatedVertex(NamedTuple):
    """A vertex, and the mean and error of each of its figures."""

    label: Any
    reachable: Estimate
    harmonic: Estimate
    closeness: Estimate
    lin: Estimate
    distances: Estimate


class RepeatedVertices(Sequence[RepeatedVertex]):
    """The vertices of several reports, in order of first appearance."""

    def __init__(self, repeated: Repeated) -> None:
        self._repeated = repeated

    def __len__(self) -> int:
        return len(self._repeated)

    @overload
    def __getitem__(self, place: int) -> RepeatedVertex: ...

    @overload
    def __getitem__(self, place: slice) -> List[RepeatedVertex]: ...

    def __getitem__(self, place: Union[int, slice]) -> Union[RepeatedVertex, List[RepeatedVertex]]:
        if isinstance(place, slice):
            return list(map(self._repeated._vertex, range(len(self))[place]))
        return self._repeated._vertex(range(len(self))[place])

    def __repr__(self) -> str:
        return f"<{len(self)} vertices, {len(self._repeated.reports)} seeds>"

    def _repr_html_(self) -> str:
        return views.of_vertices(self)


class Repeated:
    """The reports of several seeds, and what they say together: of each vertex, and of the graph."""

    def __init__(self, reports: List[Report], log2m: int = 10, estimate: str = "corrected") -> None:
        self.reports = reports
        self._registers, self._corrected = 2**log2m, estimate == "corrected"
        self._means: Optional[List[array[float]]] = None

    def __len__(self) -> int:
        return len(self.reports[0].vertices)

    def __iter__(self) -> Iterator[RepeatedVertex]:
        return map(self._vertex, range(len(self)))

    def __getitem__(self, label: Any) -> RepeatedVertex:
        """The vertex of this label. KeyError if it has none."""
        return self._vertex(self.reports[0]._place_of()[label])

    def __contains__(self, label: Any) -> bool:
        """Whether it has a vertex of this label."""
        return label in self.reports[0]

    def __repr__(self) -> str:
        return f"<Repeated: {len(self)} vertices, {len(self.reports)} seeds>"

    def _repr_html_(self) -> str:
        return views.of_repeated(self)

    @property
    def vertices(self) -> RepeatedVertices:
        """The vertices, in order of first appearance."""
        return RepeatedVertices(self)

    @property
    def label(self) -> List[Any]:
        """The labels of the vertices."""
        return self.reports[0].vertices.label

    def figures(self, name: str) -> Iterator[Estimate]:
        """A figure of all vertices."""
        columns = [report.vertices.figures(name) for report in self.reports]
        return (_estimate(values, self._counters(place)[name]) for place, values in enumerate(zip(*columns)))

    def top(self, figure: Union[str, int] = "harmonic", count: Union[str, int] = 10) -> List[RepeatedVertex]:
        """The vertices with the greatest mean of a figure, the greatest first; ``top(3)`` is so of harmonic centrality."""
        name, number = top_of(figure, count)
        means = self._mean_of(name)
        return [self._vertex(place) for place in sorted(range(len(means)), key=means.__getitem__, reverse=True)[:number]]

    @property
    def supersteps(self) -> List[Estimate]:
        """N(0), N(1), .. up to the last end of a run."""
        curves = [report.supersteps for report in self.reports]
        longest = max(map(len, curves))
        totals = list(zip(*(curve + curve[-1:] * (longest - len(curve)) for curve in curves)))
        return [_estimate(values, self._of_sum(lambda i: float(i <= t))) for t, values in enumerate(totals)]

    @property
    def gain(self) -> Estimate:
        """The growth of N at distance i weighs 2^-i."""
        return _estimate([report.gain for report in self.reports], self._of_sum(lambda i: 2.0**-i))

    def effective_diameter(self, share: float = 0.9) -> Optional[Estimate]:
        """As that of a report. None if it is so of some report."""
        values = self._of_all(lambda report: report.effective_diameter(share))
        if values is None:
            return None
        last = math.ceil(sum(values) / len(values))
        return _estimate(values, self._of_sum(lambda i: (share - (i < last)) / max(1e-9, self._news()[last])))

    def mean_distance(self) -> Optional[Estimate]:
        """As that of a report. None if it is so of some report."""
        values = self._of_all(Report.mean_distance)
        if values is None:
            return None
        news = self._news()
        pairs, (mean, _) = sum(news[1:]), bars.moments(news)
        return _estimate(values, self._of_sum(lambda i: (i - mean) / pairs))

    def spid(self) -> Optional[Estimate]:
        """As that of a report. None if it is so of some report."""
        values = self._of_all(Report.spid)
        if values is None:
            return None
        news = self._news()
        pairs, (mean, variance) = sum(news[1:]), bars.moments(news)
        return _estimate(values, self._of_sum(lambda i: ((i - mean)**2 - variance - variance / mean * (i - mean)) / mean / pairs))

    def plot(self) -> Any:
        """As that of a report, with a bar of one error each way."""
        return plots.of_repeated(self)

    def to_pandas(self) -> Any:
        """A pandas frame with a row for each vertex: the mean of each figure, and its error."""
        numpy: Any = import_module("numpy")
        pandas: Any = import_module("pandas")
        columns: dict[str, Any] = {"label": self.label}
        for name in _COLUMNS:
            both = numpy.array([estimate[:2] for estimate in self.figures(name)]).reshape(-1, 2)
            columns[name], columns[f"{name}_error"] = both[:, 0], both[:, 1]
        return pandas.DataFrame(columns)

    def _vertex(self, place: int) -> RepeatedVertex:
        vertices, counters = [report.vertices[place] for report in self.reports], self._counters(place)
        return RepeatedVertex(vertices[0].label, *(_estimate([getattr(v, name) for v in vertices], counters[name]) for name in _COLUMNS))

    # What the counters of a vertex err by on average, for each figure.
    def _counters(self, place: int) -> dict[str, float]:
        if self._means is None:
            self._means = [self._mean_of(name) for name in ("reachable", "harmonic", "distances")]
        reachable, harmonic, distances = (column[place] for column in self._means)
        return bars.of_vertex(reachable, harmonic, distances, self._lost(reachable))

    def _mean_of(self, name: str) -> array[float]:
        columns = zip(*(report.vertices.figures(name) for report in self.reports))
        return array("d", (math.fsum(values) / len(values) for values in columns))

    # What the mean estimate of a set of so many members errs by on average.
    def _lost(self, members: float) -> float:
        lost = bars.deviation(members, self._registers, self._corrected) / math.sqrt(len(self.reports))
        return math.hypot(lost, bars.bias(members, self._registers)) if self._corrected else lost

    def _of_sum(self, part: Callable[[int], float]) -> float:
        news = self._news()
        return bars.of_sum(news, map(part, range(1, len(news))), self._lost(sum(news) / max(1, len(self))))

    # N(0), and what each superstep adds: means of the seeds.
    def _news(self) -> List[float]:
        all_news = [report.news() for report in self.reports]
        return [math.fsum(news[t] for news in all_news if t < len(news)) / UNIT / len(all_news) for t in range(max(map(len, all_news)))]

    def _of_all(self, figure: Callable[[Report], Optional[float]]) -> Optional[List[float]]:
        values = [value for value in map(figure, self.reports) if value is not None]
        return values if len(values) == len(self.reports) else None


def repeat(edges: Any, *, seeds: Union[int, Iterable[int]] = 8, counted: Optional[Iterable[Any]] = None,
           **options: Any) -> Repeated:
    """The reports of a graph under several seeds, with the mean of each figure and its standard error.

    ``seeds`` are how many, or which. The edges are read once for each: they cannot be an iterator or an open file.
    ``options`` are those of ``run``.

    >>> repeated = repeat([("a", "b"), ("b", "c")], seeds=4)
    >>> repeated.top("harmonic", 1)[0].label
    'c'
    """
    chosen = list(range(seeds) if isinstance(seeds, int) else seeds)
    if len(set(chosen)) < max(2, len(chosen)):
        raise ValueError("an error is that of two seeds or more, and each stands once")
    if is_read_once(edges):
        raise ValueError(f"edges are read once for each seed, and a {type(edges).__name__} can be read once only")
    labels = counted if counted is None or isinstance(counted, (str, bytes)) else list(counted)
    reports: List[Report] = []
    progress = told_by(options.pop("progress", None), len(chosen))
    for seed in chosen:
        report = run(edges, seed=seed, counted=labels, progress=progress, **options)
        if reports and report.vertices.label != reports[0].vertices.label:
            raise ValueError("the edges are others than they were for the seed before")
        if reports:
            report.vertices.label = reports[0].vertices.label  # one list for all of them
        reports.append(report)
    return Repeated(reports, options.get("log2m", 10), options.get("estimate", "corrected"))


# Of at least two values; and what the counters err by.
def _estimate(values: Sequence[float], counters: float) -> Estimate:
    count = len(values)
    mean = math.fsum(values) / count
    squares = math.fsum((value - mean) ** 2 for value in values)
    spread = math.sqrt(squares / (count - 1) / count)
    return Estimate(mean, max(spread, counters), spread, counters)
