#!/usr/bin/env python3
"""Makes tables of a report, and sums it up.

Usage: tables.py REPORT.csv [FOLDER]

Writes supersteps.csv (superstep, pairs, new pairs) and vertices.csv (label, reachable, harmonic, closeness, lin, empty,
distances, mean distance) to the folder, with header lines; labels stand in quotes. Without a folder it writes neither.
Prints how many vertices and reachable pairs there are, how far apart they are, and the first ten by each figure. It
wants Python's standard library, and the package of this project: that of ../python, or one that is installed.

The sum of distances to a vertex is not in a report. It is the square of reachable divided by Lin's index, and keeps
its digits where the report's closeness, which is 1 divided by it, has none left. So closeness is that quotient here, with
six digits that count. The mean distance is the sum of distances divided by the number of other vertices that reach the
vertex: reachable less that of a vertex alone, which is N(0) divided by the number of vertices. (That is so where all
vertices count. Of a run with --counted a report does not say which do, and then mean distances are not to be taken.)
"""
import os
import signal
import sys
import warnings

sys.path.insert(0, os.path.join(os.path.dirname(os.path.abspath(__file__)), "..", "python"))
from hyperball import FIGURES, Report  # noqa: E402 (the package of this tree comes first)


def read(path):
    """The report, with labels as texts. Where it is none, or cannot be read, this is told, and all ends."""
    try:
        report = Report.read(path)
        report.vertices.label = list(map(str, report.vertices.label))
        return report
    except OSError as error:
        sys.exit(f"tables.py: {path}: {error.strerror}")
    except ValueError:
        sys.exit(f"tables.py: {path} is no report of hyperball run")


def number(value, digits=6):
    """The value with so many digits, or nothing where there is none."""
    return "" if value is None else f"{value:.{digits}f}"


def fixed(millionths):
    """Whole millionths, as they stand in the report."""
    return f"{millionths // 10**6}.{millionths % 10**6:06d}"


def quoted(label):
    return '"' + label.replace('"', '""') + '"'


def write_table(folder, name, header, rows):
    path = os.path.join(folder, name)
    with open(path, "w", newline="", encoding="utf-8", errors="surrogateescape") as table:
        table.write(",".join(header) + "\n")
        for row in rows:
            table.write(",".join(row) + "\n")


def printed(report, place):
    """The four figures of a vertex as texts."""
    reachable, harmonic, lin = map(fixed, report.vertices.millionths(place))
    return reachable, harmonic, f"{report.vertices.closeness[place]:.6g}", lin


def vertex_rows(report):
    alone = report.alone()
    for place, vertex in enumerate(report.vertices):
        mean = report.vertices.mean_distance(place, alone)
        yield (quoted(vertex.label), *printed(report, place), str(vertex.empty), number(vertex.distances), number(mean))


def write_tables(folder, report):
    write_table(folder, "supersteps.csv", ("superstep", "pairs", "new_pairs"),
                ((str(i), fixed(total), fixed(new)) for i, (total, new) in enumerate(zip(report.totals(), report.news()))))
    write_table(folder, "vertices.csv", ("label", *FIGURES, "empty", "distances", "mean_distance"), vertex_rows(report))


def told(value, why):
    return why if value is None else number(value, 2)


def print_summary(report):
    pairs = report.supersteps
    print(f"vertices            {len(report.vertices)}")
    print(f"reachable pairs     {number(pairs[-1], 0)}, of these {number(pairs[0], 0)} of a vertex and itself")
    print(f"mean distance       {told(report.mean_distance(), 'none: no vertex reaches another')}")
    print(f"effective diameter  {told(report.effective_diameter(), 'none: nine tenths of all pairs are a vertex and itself')}")
    print(f"spid                {told(report.spid(), 'none: no vertex reaches another')}")
    for which, name in enumerate(FIGURES):
        print(f"\nfirst by {name}")
        for place in report.vertices.figures(name).first(10):
            label = report.vertices.label[place].encode("utf-8", "backslashreplace").decode()
            print(f"  {printed(report, place)[which]:>20}  {label}")


def main(words):
    signal.signal(signal.SIGPIPE, signal.SIG_DFL)  # where the summary goes to head, it ends in silence
    warnings.showwarning = lambda warning, *_: print(f"tables.py: {warning}", file=sys.stderr)
    if len(words) not in (1, 2) or words[0] in ("-h", "--help"):
        sys.exit(__doc__.strip())
    report = read(words[0])
    if len(words) == 2:
        os.makedirs(words[1], exist_ok=True)
        write_tables(words[1], report)
    print_summary(report)


if __name__ == "__main__":
    main(sys.argv[1:])
