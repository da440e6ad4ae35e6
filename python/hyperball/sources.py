"""What edges may be, and how they go to the program: piece by piece, with no copy of the list.

A source has ``pieces``, the bytes of the edge list; ``label``, which gives the label of a field that comes back; and
``field``, the field of a label of the list of counted vertices.
"""
from __future__ import annotations

import os
from collections.abc import Mapping
from itertools import islice
from typing import Any, Iterable, Iterator, List, Optional, Protocol

from hyperball import graphs
from hyperball.arrays import columns_of
from hyperball.files import Lines
from hyperball.labels import Labelled, Record
from hyperball.options import delimiter_of

# How many records are put together at once.
_RECORDS = 8192


class Source(Protocol):
    """An edge list that is about to be read."""

    delimiter: str

    def pieces(self) -> Iterator[bytes]:
        """The bytes of the edge list."""

    def field(self, label: Any) -> bytes:
        """The field of a label in a list of vertices."""

    def label(self, field: str) -> Any:
        """The label of a field of the report."""


def source_of(edges: Any, undirected: bool = False, delimiter: Optional[str] = None) -> Source:
    """The source that these edges are: a path, an open file, a graph, a frame, an array, a matrix, or pairs."""
    name = "tab" if delimiter is None else delimiter_of(delimiter)
    if isinstance(edges, (str, os.PathLike)) or hasattr(edges, "read"):
        return Lines(edges, undirected, name)
    if delimiter is not None:
        raise ValueError("a delimiter is for paths and open files")
    if graphs.is_networkx(edges):
        return graphs.Networkx(edges, undirected)
    if graphs.is_igraph(edges):
        return graphs.Igraph(edges, undirected)
    if graphs.is_graph_tool(edges):
        return graphs.graph_tool(edges, undirected)
    if graphs.is_sparse(edges):
        return graphs.sparse(edges, undirected)
    if any(hasattr(edges, name) for name in ("columns", "ndim")) and any(hasattr(edges, name) for name in ("iloc", "tolist")):
        return columns_of(edges, undirected)
    return Records(edges, undirected)


def is_read_once(edges: Any) -> bool:
    """Whether the edges are gone once they were read: an open file, or an iterator."""
    return hasattr(edges, "read") or hasattr(edges, "__next__")


class Records(Labelled):
    """Records of Python objects, of one or two labels each."""

    def __init__(self, records: Iterable[Any], both_ways: bool) -> None:
        super().__init__()
        try:
            self._records = iter(records)
        except TypeError:
            raise TypeError(f"edges are a path, a file, pairs, a frame, an array or a graph, not {type(records).__name__}") from None
        self._both_ways = both_ways

    def pieces(self) -> Iterator[bytes]:
        before = 0
        while True:
            records = list(islice(self._records, _RECORDS))
            if not records:
                return
            if set(map(type, records)) != {tuple} or not set(map(len, records)) <= {1, 2}:
                records = [_record(record, number) for number, record in enumerate(records, before + 1)]
            before += len(records)
            yield self._labels.lines(records, self._both_ways)


# The labels of a record that need not be one.
def _record(record: Any, number: int) -> Record:
    if isinstance(record, (str, bytes)):
        raise ValueError(f"edge {number} is no pair but the text {record!r}")
    if isinstance(record, Mapping):  # as of csv.DictReader: its own keys are no labels
        raise ValueError(f"edge {number} is no pair: {record!r}")
    try:
        labels = tuple(record)
    except TypeError:
        raise ValueError(f"edge {number} is no pair: {record!r}") from None
    if len(labels) not in (1, 2):
        raise ValueError(f"edge {number} is no pair: {record!r}")
    return labels


def counted_pieces(source: Source, counted: Iterable[Any]) -> Iterator[bytes]:
    """The pieces of a source, and after a line ``%%`` the list of the vertices that count."""
    last = b"\n"
    for piece in source.pieces():
        last = piece[-1:] or last
        yield piece
    fields: List[bytes] = [source.field(label) + b"\n" for label in counted]
    yield (b"" if last == b"\n" else b"\n") + b"%%\n" + b"".join(fields)
