"""Geometric centralities of a graph by HyperBall: harmonic, closeness, Lin's index, and the neighbourhood function.

>>> import hyperball
>>> report = hyperball.run([("a", "b"), ("b", "c")])
>>> report.vertices.harmonic[:]
[0.0, 1.000977, 1.501955]
>>> report["c"].label
'c'

``run`` makes a report, ``repeat`` the mean and the standard error of each figure over seeds, and ``Report.read`` reads a
report that ``save`` or the program wrote. ``harmonic_centrality``, ``closeness_centrality`` and ``lin_index`` give dicts by
node, as networkx's functions do. Figures are estimates of who can *reach* a vertex. The program does the work; where it is
looked for stands at ``hyperball.program.find``. The standard library is all that this package needs.
"""
from __future__ import annotations

from hyperball.centralities import closeness_centrality, harmonic_centrality, lin_index
from hyperball.program import Fault
from hyperball.repeats import Estimate, Repeated, RepeatedVertex, repeat
from hyperball.report import FIGURES, Figures, Report, Vertex, Vertices
from hyperball.runs import run
from hyperball.saved import Options

__all__ = ["run", "repeat", "harmonic_centrality", "closeness_centrality", "lin_index", "Report", "Vertices", "Vertex", "Figures",
           "FIGURES", "Options", "Repeated", "RepeatedVertex", "Estimate", "Fault", "__version__"]

__version__ = "0.1.0"
