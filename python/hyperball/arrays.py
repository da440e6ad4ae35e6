"""Columns of numpy arrays, pandas frames and sparse matrices: numpy makes lines of whole numbers, many rows at once.

Digits come four at a time from a table. Where a number has none, the table has bytes of zero, which are dropped at the end.
"""
from __future__ import annotations

from functools import lru_cache
from importlib import import_module
from itertools import cycle
from typing import Any, Iterator, List, Optional, Sequence

from hyperball.labels import Labelled, edges

# How many rows are put together at once.
_ROWS = 1 << 15

# What four digits count to.
_PLACES = 10000


class Columns(Labelled):
    """Two columns of labels. Vertices, if there are any, are whole numbers that stand before the edges, each alone."""

    def __init__(self, columns: Sequence[Any], both_ways: bool, vertices: Optional[Any] = None) -> None:
        super().__init__()
        self._columns, self._both_ways, self._vertices = columns, both_ways, vertices

    def pieces(self) -> Iterator[bytes]:
        if self._vertices is not None and self._labels.are_whole():
            yield from map(lines, _cut([self._vertices]))
        for parts in _cut(self._columns):
            numbers = [_whole(part) for part in parts]
            if all(part is not None for part in numbers) and self._labels.are_whole():
                yield lines(numbers, self._both_ways)
            else:
                labels: List[Any] = [None] * (2 * len(parts[0]))
                labels[::2], labels[1::2] = (part.tolist() for part in parts)
                yield edges(self._labels.fields(labels), self._both_ways)


def columns_of(table: Any, both_ways: bool) -> Columns:
    """The columns of a frame or an array."""
    if hasattr(table, "columns"):
        if len(table.columns) != 2:
            raise ValueError(f"a frame of edges has two columns, not {len(table.columns)}: choose them, as in frame[['from', 'to']]")
        return Columns([table.iloc[:, 0], table.iloc[:, 1]], both_ways)
    if hasattr(table, "getA"):  # of a numpy matrix a column has two dimensions, of its array one
        table = table.getA()
    if table.ndim != 2 or table.shape[1] != 2:
        raise ValueError(f"an array of edges has two columns, and this one the shape {tuple(table.shape)}")
    return Columns([table[:, 0], table[:, 1]], both_ways)


def lines(columns: Sequence[Any], both_ways: bool = False) -> bytes:
    """Lines of one or two columns of whole numbers."""
    numpy: Any = import_module("numpy")
    fields = [_words(column) for column in columns]
    if both_ways:
        fields += fields[::-1]
    words = []
    for field, end in zip(fields, cycle(b"\t\n" if len(columns) == 2 else b"\n")):
        words += [*field, numpy.uint8(end)]
    table = numpy.empty(len(columns[0]), [(f"{place}", word.dtype) for place, word in enumerate(words)])
    for place, word in enumerate(words):
        table[f"{place}"] = word
    text: bytes = table.tobytes()
    return text.translate(None, b"\0")


# The sign of each number, where some have one, and its digits: columns of four bytes, of which those of zero do not count.
def _words(column: Any) -> List[Any]:
    numpy: Any = import_module("numpy")
    words: List[Any] = []
    signs = []
    if column.dtype.kind == "i":
        column = column.astype("int64")
        if column.min() < 0:
            signs = [numpy.where(column < 0, numpy.uint8(ord("-")), numpy.uint8(0))]
        column = numpy.abs(column).view("uint64")  # (the least number has no positive of its own, but these bits)
    most = int(column.max())
    column = column.astype("uint64" if most >> 32 else "uint32")
    while most or not words:
        rest = column // _PLACES
        index = (column - rest * _PLACES).astype("intp")
        index += (rest == 0) * (_PLACES if words else 2 * _PLACES)
        words.append(_table().take(index))
        column, most = rest, most // _PLACES
    return signs + words[::-1]


# Each number of four digits, as bytes: with all its zeros, for a word that others are before; with none in front, for the
# first word of a number, which for 0 has no bytes; and the same for the only word of a number, which for 0 is "0".
@lru_cache(maxsize=None)
def _table() -> Any:
    numpy: Any = import_module("numpy")
    whole = [b"%04d" % number for number in range(_PLACES)]
    first = [text.lstrip(b"0").rjust(4, b"\0") for text in whole]
    return numpy.frombuffer(b"".join([*whole, *first, b"0".rjust(4, b"\0"), *first[1:]]), "uint32")


def _cut(columns: Sequence[Any]) -> Iterator[List[Any]]:
    for at in range(0, len(columns[0]), _ROWS):
        yield [(column.iloc if hasattr(column, "iloc") else column)[at:at + _ROWS] for column in columns]


# A part of a column as whole numbers, if its type has no others, or none stands here.
def _whole(part: Any) -> Optional[Any]:
    values = part.to_numpy() if hasattr(part, "to_numpy") else part
    kind = "O" if hasattr(values, "mask") else getattr(values.dtype, "kind", "O")  # (what is masked is missing)
    if kind == "f":
        numpy: Any = import_module("numpy")
        with numpy.errstate(invalid="ignore"):
            numbers = values.astype("int64")
        return numbers if (numbers == values).all() else None
    return values if kind in "iu" else values.astype("uint8") if kind == "b" else None
