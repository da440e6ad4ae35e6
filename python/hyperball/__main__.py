"""The central vertices of a graph, as a table, and as a file and a picture if they are asked for.

A graph is an edge list: a line for each edge, with a tab, a comma or a space between its two labels (the first lines show
which of them it is). Lines that begin with # are left out. The list may be compressed by gzip. Figures are estimates, with
1,024 registers a vertex, of who can reach a vertex; vertices.csv has them all, in the order in which vertices appear.
"""
from __future__ import annotations

import argparse
import contextlib
import csv
import gzip
import os
import shutil
import signal
import sys
import tempfile
import zlib
from typing import IO, Any, Dict, Iterable, List, NoReturn, Optional, Sequence, Union

from hyperball import plots, views
from hyperball.program import Fault
from hyperball.repeats import Repeated, repeat
from hyperball.report import FIGURES, Report
from hyperball.runs import run

_DELIMITERS = {"tab": b"\t", "comma": b",", "space": b" "}
_LINES = 100


class _Parser(argparse.ArgumentParser):
    def error(self, message: str) -> NoReturn:
        raise ValueError(f"{message} (python3 -m hyperball --help)")


def main(words: Optional[List[str]] = None) -> int:
    """The exit status: 0; 2 after a mistake; 1 if the program failed."""
    try:
        asked = _asked(words)
        report = _report(asked)
        if asked.output:
            _write(asked.output, report)
        if asked.plot:
            report.plot().savefig(asked.plot)
    except (ValueError, EOFError, ImportError, zlib.error) as error:
        return _say(error, 2)
    except OSError as error:
        return _say(f"{error.filename}: {error.strerror}" if error.filename else error, 2)
    except Fault as fault:
        return _say(fault, 2 if fault.text.startswith(("record ", "too many ")) else 1)
    except KeyboardInterrupt:
        return _say("interrupted", 130)
    signal.signal(signal.SIGPIPE, signal.SIG_DFL)  # where the table goes to head, it ends in silence
    _print(report, asked.top)
    return 0


def _asked(words: Optional[List[str]]) -> argparse.Namespace:
    about, _, more = (__doc__ or "").partition("\n\n")
    parser = _Parser(prog="python3 -m hyperball", description=about, epilog=more)
    parser.add_argument("graph", metavar="GRAPH", help="the edge list's file; - is standard input")
    parser.add_argument("--undirected", action="store_true", help="each edge leads both ways")
    parser.add_argument("--top", type=int, default=20, metavar="20", help="how many vertices the table has")
    parser.add_argument("-o", dest="output", metavar="vertices.csv", help="writes the figures of all vertices, with all their digits")
    parser.add_argument("--plot", metavar="picture.png", help="draws distances and harmonic centrality, by matplotlib")
    parser.add_argument("--seeds", type=int, metavar="8", help="runs so many times, and gives means of figures and their errors")
    asked = parser.parse_args(words)
    if asked.top < 0:
        raise ValueError(f"a table has 0 vertices or more, not {asked.top}")
    if asked.seeds is not None and asked.seeds < 2:
        raise ValueError(f"errors are those of 2 seeds or more, not {asked.seeds}")
    for path in [named for named in (asked.output, asked.plot) if named]:  # (all of this is found before a long run, not after it)
        if os.path.isdir(path) or not os.access(path if os.path.exists(path) else os.path.dirname(path) or ".", os.W_OK):
            raise ValueError(f"{path} cannot be written")
    if asked.plot:
        plots.check(asked.plot)
    return asked


def _report(asked: argparse.Namespace) -> Union[Report, Repeated]:
    options: Dict[str, Any] = {"undirected": asked.undirected, "progress": sys.stderr.isatty()}
    with contextlib.ExitStack() as opened:
        path: str = asked.graph
        if not os.path.isfile(path):  # standard input, or a pipe that has a name: it is read twice
            path = _copied(opened, sys.stdin.buffer if path == "-" else opened.enter_context(open(path, "rb")))
        with _unzipped(path) as file:
            options["delimiter"] = _delimiter(file, "standard input" if asked.graph == "-" else asked.graph)
        edges: Any = path
        if path.endswith(".gz") or _is_zipped(path):  # (the package goes by the name)
            edges = opened.enter_context(_unzipped(path))
        if asked.seeds is None:
            report: Union[Report, Repeated] = run(edges, **options)
        else:
            report = repeat(edges if edges is path else _copied(opened, edges), seeds=asked.seeds, **options)
    return report


# The path of a copy, which goes when all is closed.
def _copied(opened: contextlib.ExitStack, file: IO[bytes]) -> str:
    copy = opened.enter_context(tempfile.NamedTemporaryFile(prefix="hyperball-"))
    shutil.copyfileobj(file, copy)
    copy.flush()
    return copy.name


def _is_zipped(path: str) -> bool:
    with open(path, "rb") as file:
        return file.read(2) == b"\x1f\x8b"


def _unzipped(path: str) -> Any:
    return gzip.open(path) if _is_zipped(path) else open(path, "rb")


# What stands between two labels in most of the first lines. A list in which it stands nowhere is none that was meant.
def _delimiter(lines: Iterable[bytes], name: str) -> str:
    counts, seen = dict.fromkeys(_DELIMITERS, 0), []
    for number, line in enumerate(lines, 1):
        line = line.rstrip(b"\r\n")
        if line.startswith(b"%"):
            raise ValueError(f"line {number} of {name} begins with %: sed '/^%/d' leaves such comments out")
        if not line.startswith(b"#") and any(byte in line for byte in _DELIMITERS.values()):
            seen.append((number, line))
            for kind, byte in _DELIMITERS.items():
                labels = line.split(byte)
                counts[kind] += len(labels) == 2 and all(labels)
        if len(seen) == _LINES:
            break
    best = max(counts, key=counts.__getitem__)
    for number, line in seen:
        fields = line.split(_DELIMITERS[best])
        if len(fields) > 2:
            raise ValueError(f"line {number} of {name} has {len(fields)} fields, and an edge two: awk or cut leaves the others out")
    if not counts[best]:
        raise ValueError(f"no line of {name} has two labels with a tab, a comma or a space between them")
    blanks = any(field.strip() != field for _, line in seen for field in line.split(_DELIMITERS[best]))
    _say(f"the delimiter of {name} is taken to be a {best}{', and the blanks beside it part of labels' if blanks else ''}", 0)
    return best


def _write(path: str, report: Union[Report, Repeated]) -> None:
    with open(path, "w", newline="", encoding="utf-8", errors="surrogateescape") as file:
        table = csv.writer(file, lineterminator="\n")
        if isinstance(report, Repeated):
            table.writerow(("label", *FIGURES, *(f"{name}_error" for name in FIGURES)))
            for several in report:
                estimates = several[1:1 + len(FIGURES)]
                table.writerow((several.label, *(estimate.mean for estimate in estimates), *(estimate.error for estimate in estimates)))
        else:
            table.writerow(("label", *FIGURES))
            table.writerows(vertex[:1 + len(FIGURES)] for vertex in report.vertices)


def _print(report: Union[Report, Repeated], top: int) -> None:
    rows: List[Sequence[str]] = [("label", "harmonic", "reachable", "closeness", "lin")]
    for vertex in report.top("harmonic", top):
        rows.append((_plain(vertex.label), *(views.number(getattr(vertex, name)) for name in rows[0][1:])))
    widths = [max(map(len, column)) for column in zip(*rows)]
    lines = [views.told(report)]
    if top:
        lines += ["", *("  ".join([row[0].ljust(widths[0]), *map(str.rjust, row[1:], widths[1:])]) for row in rows)]
    encoding = sys.stdout.encoding or "ascii"
    for line in lines:
        print(line.replace("±", "±" if encoding.lower().startswith("utf") else "+-").encode(encoding, "backslashreplace").decode(encoding))


# A label as it may stand on a terminal: on one line, cut if it is long, and with nothing that a terminal would obey.
def _plain(label: Any) -> str:
    text = "".join(letter if letter.isprintable() else repr(letter)[1:-1] for letter in str(label))
    return text if len(text) <= 60 else text[:57] + "..."


def _say(text: object, status: int) -> int:
    print(f"hyperball: {_line(text)}", file=sys.stderr)
    return status


def _line(text: object) -> str:
    return " ".join(str(text).split()) or "a mistake"


if __name__ == "__main__":
    sys.exit(main())
