"""Centralities by networkx's names, with its arguments and conventions: a dict by node, of figures that are estimates.

As there, distances are those *to* a node, and lengths of edges are 1; for those from it, give ``G.reverse()``. ``G`` may be
whatever ``hyperball.run`` takes, and further arguments are its options (``log2m``, ``seed``, ..).

>>> harmonic_centrality([("a", "b"), ("b", "c")], ["a", "b"])
{'a': 0.0, 'b': 1.000977}
"""
from __future__ import annotations

from typing import Any, Dict, Iterable, List, Optional, Union

from hyperball.report import Report
from hyperball.runs import run


def harmonic_centrality(G: Any, nbunch: Any = None, distance: None = None, sources: Any = None, **options: Any) -> Dict[Any, float]:
    """The sum of 1 divided by the distance, over all nodes that reach a node, or over those of ``sources`` that do.

    As networkx.harmonic_centrality; ``nbunch`` says of which nodes, and nodes that are not in the graph are left out. An
    estimate: at log2m 10, the default, it errs by some 3 % or less.
    """
    _refuse(distance)
    report = run(G, counted=None if sources is None else _members(G, sources), **options)
    return _chosen(report, report.vertices.harmonic, nbunch)


def closeness_centrality(G: Any, u: Any = None, distance: None = None, wf_improved: bool = True, **options: Any) -> Union[float, Dict[Any, float]]:
    """How many others reach a node, divided by the sum of their distances: 1 divided by the mean distance.

    As networkx.closeness_centrality, and not the ``closeness`` of a report, which is 1 divided by that sum. If
    ``wf_improved``, times the share of the others that reach it. Only that of the node ``u``, if it is given. An estimate.
    """
    _refuse(distance)
    report = run(G, **options)
    alone, others = float(report.alone()), max(1, len(report) - 1)
    figures = []
    for reachable, distances in zip(report.vertices.reachable, report.vertices.distances):
        reached = max(0.0, reachable - alone)
        closeness = reached / distances if distances else 0.0
        figures.append(closeness * min(1.0, reached / others) if wf_improved else closeness)
    if u is None:
        return dict(zip(report.vertices.label, figures))
    return figures[report.place(u)]


def lin_index(G: Any, nbunch: Any = None, **options: Any) -> Dict[Any, float]:
    """Lin's index: how many nodes reach a node, itself included, squared, divided by the sum of their distances.

    1 for a node that no other reaches. networkx has no function for it. ``nbunch`` as for harmonic_centrality. An estimate.
    """
    report = run(G, **options)
    return _chosen(report, report.vertices.lin, nbunch)


def _refuse(distance: Any) -> None:
    if distance is not None:
        raise NotImplementedError(f"the length of each edge is 1: distance is None, not {distance!r}")


# The nodes of a bunch, which may be one node. Of a graph of networkx only those that it has.
def _members(G: Any, bunch: Any) -> List[Any]:
    return list(G.nbunch_iter(bunch) if hasattr(G, "nbunch_iter") else bunch)


def _chosen(report: Report, figures: Iterable[float], nbunch: Optional[Any]) -> Dict[Any, float]:
    found = dict(zip(report.vertices.label, figures))
    if nbunch is None:
        return found
    return {node: found[node] for node in ([nbunch] if _is_node(nbunch, found) else nbunch) if node in found}


def _is_node(bunch: Any, found: Dict[Any, float]) -> bool:
    try:
        return bunch in found
    except TypeError:  # a list cannot be hashed, and is no node
        return False
