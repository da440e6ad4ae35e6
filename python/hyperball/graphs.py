"""Graphs of networkx, igraph, graph-tool and scipy, told by what they have, so that none of these is imported.

A graph's vertices stand first, each alone: so a report has them in the graph's order, and those without edges too.
"""
from __future__ import annotations

from importlib import import_module
from itertools import chain, islice
from typing import Any, Callable, Dict, Iterator, List

from hyperball.arrays import Columns
from hyperball.labels import Labelled, bytes_of, edges

# How many edges are put together at once.
_EDGES = 8192


def is_networkx(graph: Any) -> bool:
    return all(hasattr(graph, name) for name in ("is_directed", "nodes", "edges", "adjacency"))


def is_igraph(graph: Any) -> bool:
    return all(hasattr(graph, name) for name in ("is_directed", "vs", "es", "get_edgelist"))


def is_graph_tool(graph: Any) -> bool:
    return all(hasattr(graph, name) for name in ("is_directed", "get_vertices", "get_edges"))


def is_sparse(matrix: Any) -> bool:
    return all(hasattr(matrix, name) for name in ("tocoo", "nnz", "shape"))


class Graph(Labelled):
    """Vertices with labels, and edges between them."""

    def __init__(self, graph: Any, undirected: bool) -> None:
        super().__init__()
        self._graph, self._both_ways = graph, undirected or not graph.is_directed()

    # The fields of these vertices, and the pieces that have each of them alone.
    def _alone(self, vertices: List[Any]) -> Iterator[bytes]:
        for at in range(0, len(vertices), _EDGES):
            yield bytes_of("\n".join(vertices[at:at + _EDGES]) + "\n")


class Networkx(Graph):
    """Its nodes are the labels. An edge that it has several times goes once."""

    def pieces(self) -> Iterator[bytes]:
        nodes = list(self._graph.nodes())
        fields = self._labels.fields(nodes)
        yield from _alone(fields)
        line = _whole_lines if fields is nodes and type(nodes[0]) is int else _lines_of(dict(zip(nodes, map(str, fields))))
        both_ways = self._both_ways and self._graph.is_directed()  # (one that is undirected has each edge at both ends)
        lines: List[str] = []
        size = 0
        for node, neighbours in self._graph.adjacency():
            lines += line(node, neighbours, both_ways)
            size += len(neighbours)
            if size >= _EDGES:
                yield bytes_of("".join(lines))
                lines, size = [], 0
        yield bytes_of("".join(lines))


class Igraph(Graph):
    """Its vertices are known by their names, if they have any, or else by their numbers. The numbers go out in any case."""

    def __init__(self, graph: Any, undirected: bool) -> None:
        super().__init__(graph, undirected)
        if "name" not in graph.vs.attributes():
            self._labels.are_whole()
        else:
            self._names = [str(field) for field in self._labels.fields(graph.vs["name"])]
            self._places = {name: place for place, name in enumerate(self._names)}
            if len(self._places) != len(self._names):
                raise ValueError("two vertices of the graph have one name")
            self.label, self.field = self._named, self._place

    def pieces(self) -> Iterator[bytes]:
        yield from _alone(list(range(self._graph.vcount())))
        ends = chain.from_iterable(self._graph.get_edgelist())
        for some in iter(lambda: list(islice(ends, 2 * _EDGES)), []):
            yield edges(some, self._both_ways)

    def _named(self, field: str) -> Any:
        return self._labels.label(self._names[int(field)])

    # (-1 is the field of no vertex, which the program will say)
    def _place(self, label: Any) -> bytes:
        name = self._labels.field(label).decode("utf-8", "surrogateescape")
        return b"%d" % self._places.get(name, -1)


# Lines of vertices, each alone.
def _alone(fields: List[Any]) -> Iterator[bytes]:
    for at in range(0, len(fields), _EDGES):
        yield bytes_of("\n".join(map(str, fields[at:at + _EDGES])) + "\n")


# The lines from a node to its neighbours, and from these to it.
def _whole_lines(node: Any, neighbours: Any, both_ways: bool) -> List[str]:
    ends = tuple(neighbours)  # (an end that equals a whole number, as 1.0, is written as that)
    lines = [f"{node}\t%d\n" * len(ends) % ends]
    return [*lines, f"%d\t{node}\n" * len(ends) % ends] if both_ways else lines


def _lines_of(fields: Dict[Any, str]) -> Callable[[Any, Any, bool], List[str]]:
    def lines(node: Any, neighbours: Any, both_ways: bool) -> List[str]:
        field = fields[node]
        ends = list(map(fields.__getitem__, neighbours))
        if not ends:
            return []
        there = [field, "\t", f"\n{field}\t".join(ends), "\n"]
        return [*there, f"\t{field}\n".join(ends), "\t", field, "\n"] if both_ways else there

    return lines


def graph_tool(graph: Any, undirected: bool) -> Columns:
    """The edges of a graph of graph-tool, whose vertices are known by their numbers."""
    ends = graph.get_edges()
    return Columns([ends[:, 0], ends[:, 1]], undirected or not graph.is_directed(), graph.get_vertices())


def sparse(matrix: Any, undirected: bool) -> Columns:
    """The edges of a sparse matrix: from a row to each column where there is anything but 0."""
    rows, columns = matrix.shape
    if rows != columns:
        raise ValueError(f"a matrix of edges has as many columns as rows, and this one the shape {(rows, columns)}")
    numpy: Any = import_module("numpy")
    entries = matrix.tocoo()
    there = entries.data != 0
    return Columns([entries.row[there], entries.col[there]], undirected, numpy.arange(rows))
