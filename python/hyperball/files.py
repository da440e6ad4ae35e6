"""Edge lists in files: their lines go out as they are, and each edge the other way round too where that is asked for."""
from __future__ import annotations

import gzip
import os
from typing import Any, Iterable, Iterator, List, Optional, Tuple, Union

# How many bytes are read at once.
_BYTES = 1 << 20

DELIMITERS = {"tab": b"\t", "comma": b",", "space": b" "}

# The byte order mark, in UTF-8.
_MARK = b"\xef\xbb\xbf"

# What takes a third field away.
_CUTS = {b"\t": "cut -f 1,2", b",": "cut -d , -f 1,2", b" ": "cut -d ' ' -f 1,2"}

# How much of a line is shown.
_SHOWN = 100


class Lines:
    """Lines of a file, as they are; where the graph is undirected, each edge both ways."""

    def __init__(self, file: Any, undirected: bool, delimiter: str) -> None:
        self._file, self._undirected, self.delimiter = file, undirected, delimiter
        self._start = file.tell() if hasattr(file, "read") and _can_seek(file) else None

    def pieces(self) -> Iterator[bytes]:
        delimiter = DELIMITERS[self.delimiter]
        return _doubled(self._given(), delimiter) if self._undirected else self._given()

    def again(self) -> Optional[Iterator[Tuple[int, bytes]]]:
        """The lines with their numbers once more, from 1, and without a byte order mark. None if the file cannot go back."""
        if hasattr(self._file, "read"):
            if self._start is None:
                return None
            self._file.seek(self._start)
        return _numbered(self._given())

    @property
    def place(self) -> str:
        """What says where a line is, if the file has a name."""
        return "" if hasattr(self._file, "read") else f" of {os.fsdecode(self._file)}"

    def field(self, label: Any) -> bytes:
        field = str(label).encode("utf-8", "surrogateescape")
        if not field or field.startswith(b"#") or any(byte in field for byte in (b"\n", b"\r", DELIMITERS[self.delimiter])):
            raise ValueError(f"the label {label!r} cannot stand in a list of vertices")
        return field

    def label(self, field: str) -> str:
        return field

    # The file's own bytes: of a path they are uncompressed if they begin as those of a .gz.
    def _given(self) -> Iterator[bytes]:
        if hasattr(self._file, "read"):
            yield from _pieces_of(self._file)
            return
        with open(self._file, "rb") as file:
            is_zipped = file.peek(2)[:2] == b"\x1f\x8b"
            yield from _pieces_of(gzip.GzipFile(fileobj=file) if is_zipped else file)


def _pieces_of(file: Any) -> Iterator[bytes]:
    return iter(lambda: _bytes_of(file.read(_BYTES)), b"")


def _can_seek(file: Any) -> bool:
    try:
        return bool(file.seekable())
    except (AttributeError, ValueError):
        return False


def _bytes_of(piece: Union[str, bytes]) -> bytes:
    return piece.encode("utf-8", "surrogateescape") if isinstance(piece, str) else piece


# The lines of these pieces, and each edge the other way round too.
def _doubled(pieces: Iterable[bytes], delimiter: bytes) -> Iterator[bytes]:
    rest, before = b"", 0
    for number, piece in enumerate(pieces):
        if number == 0:  # (a byte order mark would stand before the first label one way, and in it the other way)
            piece = piece[len(_MARK):] if piece.startswith(_MARK) else piece
        whole, end, rest = (rest + piece).rpartition(b"\n")
        yield _piece_doubled(whole + end, delimiter, before)
        before += whole.count(b"\n") + len(end)
    if rest:
        yield _line_doubled(rest, delimiter, before + 1)


# Whole lines, doubled. Where all are edges, and no field begins with #, they are taken apart and joined at once.
def _piece_doubled(piece: bytes, delimiter: bytes, before: int) -> bytes:
    fields = piece.replace(b"\n", delimiter).split(delimiter)[:-1]
    there, back = fields[::2], fields[1::2]
    if b"\r" not in piece and b"#" not in piece and all(fields) and _joined(there, back, delimiter) == piece:
        return piece + _joined(back, there, delimiter)
    lines = enumerate(piece.split(b"\n")[:-1], before + 1)
    return b"".join([_line_doubled(line, delimiter, number) for number, line in lines])


def _joined(sources: List[bytes], targets: List[bytes], delimiter: bytes) -> bytes:
    return b"\n".join(map(delimiter.join, zip(sources, targets))) + b"\n"


def _line_doubled(line: bytes, delimiter: bytes, number: int) -> bytes:
    fields = (line[:-1] if line.endswith(b"\r") else line).split(delimiter)
    if line.startswith(b"#") or len(fields) == 1:
        return line + b"\n"
    if len(fields) > 2 or not all(fields):
        raise ValueError(f"a line has not one or two fields: {said_of(number, line, delimiter)}")
    if fields[1].startswith(b"#"):
        raise ValueError(f"line {number} is a comment the other way round: {line!r}")
    return b"%s\n%s\n" % (delimiter.join(fields), delimiter.join(reversed(fields)))


def _numbered(pieces: Iterable[bytes]) -> Iterator[Tuple[int, bytes]]:
    rest, before = b"", 0
    for place, piece in enumerate(pieces):
        piece = piece[len(_MARK):] if place == 0 and piece.startswith(_MARK) else piece
        *lines, rest = (rest + piece).split(b"\n")
        yield from enumerate(lines, before + 1)
        before += len(lines)
    yield before + 1, rest


def said_of(number: int, line: bytes, delimiter: bytes, place: str = "") -> str:
    """What is said of a line that is no record: where it is, its text, and what would mend it."""
    line = line[:-1] if line.endswith(b"\r") else line
    text = line.decode("utf-8", "surrogateescape")
    shown = repr(text) if len(text) <= _SHOWN else f"{text[:_SHOWN]!r}.."
    return f"line {number}{place} is {shown}, {_mended(line, delimiter)}"


def _mended(line: bytes, delimiter: bytes) -> str:
    fields = line.split(delimiter)
    if delimiter == b"," and line.count(b'"') > 1:
        return f"{len(fields)} fields: quotes keep no comma in a field, so put tabs between the labels"
    if all(fields):
        return f"{len(fields)} fields: cut the weight, as by {_CUTS[delimiter]}"
    if delimiter == b" ":
        return "and a label is missing: take spaces away that are too many, as by tr -s ' '"
    return "and a label is missing: a line has one label, or two with one delimiter between"
