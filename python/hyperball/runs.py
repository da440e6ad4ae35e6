"""One run of the program."""
from __future__ import annotations

import io
from itertools import chain
from typing import Any, Iterable, Iterator, List, Optional

from hyperball.faults import explained
from hyperball.options import estimate_of, whole
from hyperball.program import Fault, Program, Progress, version
from hyperball.report import Report
from hyperball.saved import Options
from hyperball.sources import Source, counted_pieces, source_of


def run(edges: Any, *, log2m: int = 10, estimate: str = "corrected", seed: int = 0, threads: int = 0,
        counted: Optional[Iterable[Any]] = None, large: bool = False, progress: Progress = None, undirected: bool = False,
        delimiter: Optional[str] = None, parts: int = 1, limit: int = 4096, keep: int = 0, replicas: int = 1) -> Report:
    """The report of a graph.

    ``edges`` are a path (also of a .gz), an open file, pairs of labels, a pandas frame of two columns, a numpy array of
    pairs, a graph of networkx, igraph or graph-tool, or a sparse matrix of scipy, whose rows have edges to the columns where
    there is anything but 0. They go to the program as they come; weights are ignored. Labels come back as they are: whole
    numbers, texts, and whatever else can be hashed. A record of one label is a vertex alone. A graph's vertices are all in the
    report, in its order; its edges are given both ways if it is undirected. Say ``undirected=True`` for the other kinds.

    - ``log2m``: 2^log2m registers a vertex, 4 to 10. More are nearer the true figures, and take more memory and time.
    - ``estimate``: ``"corrected"``, or ``"raw"`` for HyperLogLog's formula alone.
    - ``seed``: another one gives other estimates (``hyperball.repeat`` gives the mean of several).
    - ``threads``: how many threads; 0 for all processors.
    - ``counted``: the labels that balls count; None for all.
    - ``large``: take more than 2^24 vertices or 2^26 records.
    - ``progress``: called with each line of progress, from another thread; True for lines on standard error.
    - ``delimiter``: what stands between fields of a file: ``"tab"`` (if it is None), ``"comma"`` or ``"space"``, or the
      character itself.
    - ``parts``, ``limit``, ``keep``, ``replicas``: as the program's options of these names. No snapshots are kept by default.

    ``report.options`` says what made it. If the limit ended the run, RuntimeWarning says so. Fault is raised if the program
    makes no report. ValueError names a label or an edge that is none, or an option that is out of its limits.

    >>> [vertex.label for vertex in run([(1, 2), (3, 2), (2, 4)]).top("harmonic", 2)]
    [4, 2]
    """
    options: dict[str, Any] = {"log2m": log2m, "seed": seed, "threads": threads, "parts": parts, "limit": limit, "keep": keep,
                               "replicas": replicas}
    options = {name: whole(name, value) for name, value in options.items()}
    if isinstance(counted, (str, bytes)):
        raise ValueError(f"counted is a list of labels, not the text {counted!r}")
    labels = None if counted is None else list(counted)
    source = source_of(edges, undirected, delimiter)
    options.update(estimate=estimate_of(estimate), delimiter=source.delimiter)
    flags = {"counted": labels is not None, "large": large, "progress": bool(progress)}
    pieces = source.pieces() if labels is None else counted_pieces(source, labels)
    try:
        report = _report(_words(options, flags), pieces, source, progress)
    except Fault as fault:
        raise explained(fault, source, labels, bool(large)) from None
    members = None if labels is None else len(set(map(source.field, labels)))
    report.options = Options(options["log2m"], options["seed"], options["estimate"], options["limit"], members, version())
    report.tell_limit()
    return report


# What the program takes where it is not told: these words are left out.
_USUAL = {"seed": 0, "threads": 0, "parts": 1, "limit": 4096, "replicas": 1, "delimiter": "tab"}


def _words(options: dict[str, Any], flags: dict[str, bool]) -> List[str]:
    words = ["run"]
    for name, value in options.items():
        if value != _USUAL.get(name):
            words += [f"--{name}", str(value)]
    return words + [f"--{name}" for name, is_set in flags.items() if is_set]


# The first piece is made before the program is started, so a mistake at the front starts none.
def _report(words: List[str], pieces: Iterator[bytes], source: Source, progress: Progress) -> Report:
    first = next(pieces, b"")
    with Program(words, progress) as program:
        program.feed(chain([first], pieces))
        lines = io.TextIOWrapper(program.output, encoding="utf-8", errors="surrogateescape", newline="\n")
        try:
            report = Report.of(lines, source.label)
        except ValueError:
            program.end()
            raise
        program.end()
        return report
