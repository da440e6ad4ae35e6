"""A report: the neighbourhood function of a graph, and the figures of its vertices.

>>> report = Report.of([
...     "superstep,0,3.000000", "superstep,1,5.007842", "superstep,2,6.015716", "superstep,3,6.015716", "end,3,stable",
...     "gain,1.255889", "vertex,a,1.000000,0.000000,0.000000,1.000000,255",
...     "vertex,b,2.003921,1.003921,0.996094,4.000015,254", "vertex,c,3.011795,1.507858,0.331162,3.003941,253"])
>>> report.supersteps
[3.0, 5.007842, 6.015716, 6.015716]
>>> round(report["c"].closeness, 9)
0.331162065
>>> round(report.effective_diameter(), 2), round(report.mean_distance(), 2), round(report.spid(), 2)
(1.4, 1.33, 0.17)
"""
from __future__ import annotations

import heapq
import os
import warnings
from array import array
from collections.abc import Sequence
from fractions import Fraction
from importlib import import_module
from itertools import chain
from typing import Any, Callable, Dict, Iterable, Iterator, List, NamedTuple, Optional, Union, overload

from hyperball import plots, views
from hyperball.options import top_of
from hyperball.saved import Options, lines_of, millionths_of, read_head, unquoted

UNIT = 10**6

FIGURES = ("reachable", "harmonic", "closeness", "lin")


class Vertex(NamedTuple):
    """A vertex, and its figures: estimates of who can reach it."""

    label: Any
    reachable: float
    harmonic: float
    closeness: float
    lin: float
    empty: int
    distances: float


class Figures(Sequence[float]):
    """A figure of all vertices. It is kept in whole millionths, or is worked out of two that are."""

    def __init__(self, length: int, at: Callable[[int], float], exact: Callable[[int], int]) -> None:
        self._length, self._at, self._exact = length, at, exact

    def __len__(self) -> int:
        return self._length

    @overload
    def __getitem__(self, place: int) -> float: ...

    @overload
    def __getitem__(self, place: slice) -> List[float]: ...

    def __getitem__(self, place: Union[int, slice]) -> Union[float, List[float]]:
        if isinstance(place, slice):
            return list(map(self._at, range(self._length)[place]))
        return self._at(range(self._length)[place])

    def __iter__(self) -> Iterator[float]:
        return map(self._at, range(self._length))

    def first(self, count: int) -> List[int]:
        """The places of the greatest, the greatest first; of equal ones the first to appear comes first."""
        return heapq.nlargest(count, range(self._length), key=self._exact)

    def __repr__(self) -> str:
        return f"<{self._length} figures>"


class Vertices(Sequence[Vertex]):
    """The vertices of a report, in order of first appearance: a column for each figure, or a ``Vertex`` for each place."""

    def __init__(self) -> None:
        self.label: List[Any] = []
        self.empty = array("H")
        self._reachable: Union[array[int], List[int]] = array("Q")
        self._harmonic: Union[array[int], List[int]] = array("Q")
        self._lin: Union[array[int], List[int]] = array("Q")
        self._printed_closeness = array("Q")

    def __len__(self) -> int:
        return len(self.label)

    @overload
    def __getitem__(self, place: int) -> Vertex: ...

    @overload
    def __getitem__(self, place: slice) -> List[Vertex]: ...

    def __getitem__(self, place: Union[int, slice]) -> Union[Vertex, List[Vertex]]:
        if isinstance(place, slice):
            return list(map(self._vertex, range(len(self))[place]))
        return self._vertex(range(len(self))[place])

    def __iter__(self) -> Iterator[Vertex]:
        return map(self._vertex, range(len(self)))

    def __repr__(self) -> str:
        return f"<{len(self)} vertices>"

    def _repr_html_(self) -> str:
        return views.of_vertices(self)

    @property
    def reachable(self) -> Figures:
        """How many vertices can reach it, itself included."""
        return self._kept(self._reachable)

    @property
    def harmonic(self) -> Figures:
        """Harmonic centrality."""
        return self._kept(self._harmonic)

    @property
    def lin(self) -> Figures:
        """Lin's index."""
        return self._kept(self._lin)

    @property
    def distances(self) -> Figures:
        """The sum of the distances of those that can reach it: the square of reachable, divided by Lin's index."""
        return Figures(len(self), self._distances, self._far)

    @property
    def closeness(self) -> Figures:
        """1 divided by the sum of distances, as exact as Lin's index tells that sum, or 0 if it is 0."""
        return Figures(len(self), self._closeness, self._near)

    def figures(self, name: str) -> Figures:
        """The column of this name."""
        if name not in (*FIGURES, "distances"):
            raise ValueError(f"{name!r} is no figure: choose one of {', '.join((*FIGURES, 'distances'))}")
        column: Figures = getattr(self, name)
        return column

    def millionths(self, place: int) -> tuple[int, int, int]:
        """Reachable, harmonic centrality and Lin's index as they stand in the report, in whole millionths."""
        return self._reachable[place], self._harmonic[place], self._lin[place]

    def printed(self, place: int) -> tuple[int, int, int, int]:
        """The four figures as they stand in the report, in whole millionths: of closeness that leaves few digits, or none."""
        return self._reachable[place], self._harmonic[place], self._printed_closeness[place], self._lin[place]

    def mean_distance(self, place: int, alone: Fraction) -> Optional[float]:
        """The mean distance of the others that reach it; ``alone`` is how many reach a vertex alone. None if none do."""
        reachable, _, lin = self.millionths(place)
        others = Fraction(reachable, UNIT) - alone
        if others <= 0 or self._has_no_distances(place):
            return None
        return reachable * reachable * others.denominator / (lin * UNIT * others.numerator)

    def _kept(self, column: Union[array[int], List[int]]) -> Figures:
        return Figures(len(self), lambda place: column[place] / UNIT, column.__getitem__)

    def _vertex(self, place: int) -> Vertex:
        return Vertex(self.label[place], self._reachable[place] / UNIT, self._harmonic[place] / UNIT, self._closeness(place),
                      self._lin[place] / UNIT, self.empty[place], self._distances(place))

    def _has_no_distances(self, place: int) -> bool:
        lin = self._lin[place]
        return lin == 0 or (lin == UNIT and self._harmonic[place] == 0) or self._reachable[place] == 0

    def _distances(self, place: int) -> float:
        if self._has_no_distances(place):
            return 0.0
        return self._reachable[place] ** 2 / (self._lin[place] * UNIT)

    def _closeness(self, place: int) -> float:
        if self._has_no_distances(place):
            return 0.0
        return self._lin[place] * UNIT / self._reachable[place] ** 2

    # Whole numbers in the order of these fractions: two of them that differ do so by more than 2^-256, as reachable is
    # below 2^63 millionths.
    def _near(self, place: int) -> int:
        return 0 if self._has_no_distances(place) else (self._lin[place] << 256) // self._reachable[place] ** 2

    def _far(self, place: int) -> int:
        return 0 if self._has_no_distances(place) else (self._reachable[place] ** 2 << 256) // self._lin[place]

    # Takes the vertex lines up to the end. Indexes that 64 bits do not hold are kept in a list.
    def _take(self, lines: Iterable[str], label: Callable[[str], Any]) -> None:
        add_label, add_reachable, add_harmonic = self.label.append, self._reachable.append, self._harmonic.append
        for line in lines:
            head, reachable, harmonic, closeness, lin, empty = line.rsplit(",", 5)
            if not head.startswith("vertex,"):
                raise ValueError("no line of a vertex")
            add_label(label(unquoted(head[7:])))
            add_reachable(millionths_of(reachable))
            add_harmonic(millionths_of(harmonic))
            self._printed_closeness.append(millionths_of(closeness))
            self.empty.append(int(empty))
            try:
                self._lin.append(millionths_of(lin))
            except OverflowError:
                self._lin = [*self._lin, millionths_of(lin)]


class Report:
    """What the program says of a graph.

    ``supersteps`` are N(0), N(1), ..: how many pairs of vertices have a path of at most so many edges. ``end`` is the last
    superstep, ``stable`` whether nothing changed there, and ``gain`` rewards short distances. ``vertices`` has the columns.
    ``options`` says what made it; it is None where that is not known.
    """

    def __init__(self) -> None:
        self.end = 0
        self.stable = False
        self.options: Optional[Options] = None
        self._is_told = False
        self.vertices = Vertices()
        self._totals: List[int] = []
        self._gain = 0
        self._places: Optional[Dict[Any, int]] = None

    @classmethod
    def of(cls, lines: Iterable[str], label: Callable[[str], Any] = str) -> Report:
        """The report of these lines. ValueError if they are none."""
        report, rest = cls(), iter(lines)
        first = next(rest, "")
        try:
            if first.startswith("#"):
                report.options, label = read_head(first)
            else:
                rest = chain([first], rest)
            report._take_head(rest)
            report.vertices._take(rest, label)
        except (ValueError, OverflowError):
            raise ValueError("these lines are no report of hyperball run") from None
        return report

    @classmethod
    def read(cls, path: Union[str, os.PathLike[str]]) -> Report:
        """A report that was saved, or that the program wrote, whose labels are texts. ValueError if it is none."""
        with open(path, encoding="utf-8", errors="surrogateescape", newline="\n") as lines:
            try:
                return cls.of(lines)
            except ValueError:
                raise ValueError(f"{os.fspath(path)} is no report of hyperball run") from None

    def save(self, path: Union[str, os.PathLike[str]]) -> None:
        """Writes the report for ``read``: as the program does, after a line that says what made it.

        Labels that are no texts are read as they were: whole numbers, and literals of Python. ValueError names another.
        """
        lines = lines_of(self)
        head = next(lines)  # (it comes when all labels were looked at: before the file is opened)
        with open(path, "w", encoding="utf-8", errors="surrogateescape", newline="\n") as file:
            file.writelines(line + "\n" for line in chain([head], lines))

    def __repr__(self) -> str:
        return f"<Report of {len(self.vertices)} vertices, {self.end} supersteps, {'stable' if self.stable else 'limit'}>"

    def _repr_html_(self) -> str:
        return views.of_report(self)

    def __getitem__(self, label: Any) -> Vertex:
        """The vertex of this label. KeyError if it has none."""
        return self.vertices[self.place(label)]

    def place(self, label: Any) -> int:
        """The place of the vertex of this label among the vertices. KeyError if it has none."""
        return self._place_of()[label]

    def __contains__(self, label: Any) -> bool:
        """Whether it has a vertex of this label."""
        return label in self._place_of()

    def __len__(self) -> int:
        return len(self.vertices)

    def __iter__(self) -> Iterator[Vertex]:
        return iter(self.vertices)

    def _place_of(self) -> Dict[Any, int]:
        if self._places is None:
            self._places = {known: place for place, known in enumerate(self.vertices.label)}
        return self._places

    @property
    def supersteps(self) -> List[float]:
        """The neighbourhood function: N(0), N(1), .. up to the end."""
        return [total / UNIT for total in self._totals]

    @property
    def gain(self) -> float:
        """The growth of N at distance i weighs 2^-i."""
        return self._gain / UNIT

    def gain_millionths(self) -> int:
        """The gain in whole millionths."""
        return self._gain

    def totals(self) -> List[int]:
        """The neighbourhood function in whole millionths."""
        return list(self._totals)

    def news(self) -> List[int]:
        """N(0), and what each further superstep adds, in whole millionths."""
        return [total - before for before, total in zip([0, *self._totals], self._totals)]

    def effective_diameter(self, share: float = 0.9) -> Optional[float]:
        """The distance within which this share of all reachable pairs lie, read on a straight line between two supersteps.

        None if the pairs of a vertex and itself are that share already. ValueError if the share is not from 0 to 1. If the
        report is not stable, it is a lower bound.
        """
        if not 0 <= share <= 1:
            raise ValueError(f"a share is from 0 to 1, not {share!r}")
        self.tell_limit()
        totals = self._totals
        wanted = Fraction(str(share)) * totals[-1]
        if totals[0] >= wanted:
            return None
        after = next(i for i, total in enumerate(totals) if total >= wanted)
        return float(after - 1 + (wanted - totals[after - 1]) / (totals[after] - totals[after - 1]))

    def mean_distance(self) -> Optional[float]:
        """The mean distance of all reachable pairs of two vertices. None if there are none. A lower bound if not stable."""
        self.tell_limit()
        mean = self._mean(1)
        return None if mean is None else float(mean)

    def spid(self) -> Optional[float]:
        """The variance of these distances divided by their mean (the shortest-paths index of dispersion)."""
        self.tell_limit()
        mean, squares = self._mean(1), self._mean(2)
        return None if not mean or squares is None else float((squares - mean * mean) / mean)

    def top(self, figure: Union[str, int] = "harmonic", count: Union[int, str] = 10) -> List[Vertex]:
        """The vertices that have the greatest figure, the greatest first: ``top(3)``, ``top("lin")``, ``top("lin", 3)``."""
        name, number = top_of(figure, count)
        return [self.vertices[place] for place in self.vertices.figures(name).first(number)]

    def alone(self) -> Fraction:
        """How many vertices reach a vertex alone, as estimated: N(0) divided by the number of vertices."""
        return Fraction(self._totals[0], UNIT * max(1, len(self.vertices)))

    def plot(self) -> Any:
        """A matplotlib figure: the neighbourhood function, and harmonic centrality by rank (``.savefig("picture.png")``)."""
        return plots.of_report(self)

    def to_pandas(self) -> Any:
        """A pandas frame with a row for each vertex."""
        numpy: Any = import_module("numpy")
        pandas: Any = import_module("pandas")
        columns = {name: numpy.frombuffer(array("d", self.vertices.figures(name))) for name in (*FIGURES, "distances")}
        empty = numpy.array(self.vertices.empty)
        return pandas.DataFrame({"label": self.vertices.label, **columns, "empty": empty})

    def tell_limit(self) -> None:
        """Warns, once, that the run ended by its limit, if it did so."""
        if not (self.stable or self._is_told):
            self._is_told = True
            warnings.warn(f"the run ended by its limit, superstep {self.end}: paths of more edges are not counted, and mean_distance "
                          "and effective_diameter are lower bounds", RuntimeWarning, stacklevel=3)

    # The mean of a power of the distances of all reachable pairs of two vertices.
    def _mean(self, power: int) -> Optional[Fraction]:
        pairs = self._totals[-1] - self._totals[0]
        if pairs <= 0:
            return None
        return Fraction(sum(i**power * new for i, new in enumerate(self.news()) if i), pairs)

    # Takes the lines before those of vertices.
    def _take_head(self, lines: Iterator[str]) -> None:
        for line in lines:
            word, place, text = line.rstrip("\r\n").split(",") if line.startswith(("superstep,", "end,")) else ("", "", "")
            if word == "superstep" and int(place) == len(self._totals):
                self._totals.append(millionths_of(text))
                continue
            if word != "end" or int(place) != len(self._totals) - 1 or text not in ("stable", "limit"):
                break
            self.end, self.stable = int(place), text == "stable"
            word, _, text = next(lines, "").rstrip("\r\n").partition(",")
            if word == "gain":
                self._gain = millionths_of(text)
                return
        raise ValueError("no report")
