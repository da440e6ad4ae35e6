#!/usr/bin/env python3
"""Measures how near the figures of classes of vertices are, and what the error bars of hyperball.repeat are worth.

Usage: bench/repeats.py            prints the tables of three graphs (some minutes)
       bench/repeats.py real       of the four real ones that bench/real.py makes (a quarter of an hour)

Corrected estimates at log2m 6, 8 and 10 against exact figures, for twenty times eight seeds, of real graphs five times. Vertices
are in classes: 2 to 10 reach one (itself included), 11 to 1,000, or more. The tables that docs/ACCURACY.md has:

- the mean relative error of one run, for each figure and class, as bench/accuracy.py has it;
- for how many vertices the exact figure is within three times the spread of eight seeds, and within one and three errors, of
  their mean: of the four figures that with the fewest. (If errors were normal, 91 % were within two spreads, 98 % within three,
  by Student's t with seven degrees of freedom.)
- of the whole graph: the mean error of one run and the greatest, and how often the exact figure is within three errors.

HYPERBALL names another program.
"""
import os
import sys
import tempfile

import accuracy
import real

sys.path.insert(0, os.path.join(accuracy.HERE, "..", "python"))
import hyperball  # noqa: E402 (the package of this tree)

SEEDS, LOG2M = 8, (6, 8, 10)
CLASSES = (("2 to 10", 2, 10), ("11 to 1,000", 11, 1000), ("more", 1001, float("inf")))


def worth(values, estimate, exact):
    """The error of one run, and whether the exact figure is within three spreads, one error and three."""
    off = abs(estimate.mean - exact)
    single = sum(abs(value - exact) for value in values) / len(values) / exact
    return (single, off <= 3 * estimate.spread, off <= estimate.error, off <= 3 * estimate.error)


def of_vertices(repeated, true, found):
    """Adds what the figures of each vertex are worth to the sums of its class; the first sum counts the vertices."""
    for place, label in enumerate(repeated.label):
        name = next((name for name, least, most in CLASSES if least <= true[label][0] <= most), None)
        if name:
            vertex, of_seeds = repeated.vertices[place], [report.vertices[place] for report in repeated.reports]
            for figure, exact in zip(hyperball.FIGURES, true[label]):
                sums = found.setdefault((name, figure), [0] * 5)
                for which, value in enumerate((1, *worth([getattr(one, figure) for one in of_seeds], getattr(vertex, figure), exact))):
                    sums[which] += value


def of_graph(repeated, totals, found):
    """Adds what figures of the whole graph are worth to lists of them, and of their values under each seed."""
    distance = sum(t * (total - before) for t, (before, total) in enumerate(zip(totals, totals[1:]), 1)) / (totals[-1] - totals[0])
    for name, figure, exact in (("pairs", lambda report: report.supersteps[-1], totals[-1]), ("mean distance", lambda report: report.mean_distance(), distance),
                                ("effective diameter", lambda report: report.effective_diameter(), accuracy.diameter(totals))):
        values = list(map(figure, repeated.reports))
        found.setdefault(name, []).append(([accuracy.error(value, exact) for value in values], worth(values, figure(repeated), exact)))


def measured(records, times):
    """For each log2m what was found of vertices, and of the graph; and how many vertices each class has."""
    totals, true = accuracy.exact(records)
    print(f"{len(true):,} vertices, each reached by {totals[-1] / len(true):,.1f} on average; effective diameter {accuracy.diameter(totals):.2f}\n")
    with tempfile.NamedTemporaryFile("w", encoding="utf-8", errors="surrogateescape") as file:
        file.writelines("\t".join(record) + "\n" for record in records)
        file.flush()
        for log2m in LOG2M:
            vertices, graph = {}, {}
            for first in range(0, times * SEEDS, SEEDS):
                repeated = hyperball.repeat(file.name, seeds=range(first, first + SEEDS), log2m=log2m)
                of_vertices(repeated, true, vertices)
                of_graph(repeated, totals, graph)
            yield vertices, graph


def row(*cells):
    print("|" + "|".join(cells) + "|", flush=True)


def head(*cells):
    print()
    row(*cells)
    row(*["---"] * len(cells))


def tables(name, records, times):
    all_vertices, all_graph = zip(*measured(records, times))
    classes = [(reached, f"{all_vertices[0][reached, 'harmonic'][0] // times:,}") for reached, _, _ in CLASSES if (reached, "harmonic") in all_vertices[0]]
    head("graph", "reached by", "vertices", *(f"{figure}, {log2m}" for figure in hyperball.FIGURES for log2m in LOG2M[1:]))
    for reached, count in classes:
        sums = [found[reached, figure] for figure in hyperball.FIGURES for found in all_vertices[1:]]
        row(name, reached, count, *(accuracy.percent(single / vertices) for vertices, single, *_ in sums))
    head("graph", "reached by", "vertices", *(f"{bar}, {log2m}" for bar in ("3 spreads", "1 error", "3 errors") for log2m in LOG2M))
    for reached, count in classes:
        least = [min(found[reached, figure][which] / found[reached, figure][0] for figure in hyperball.FIGURES) for which in (2, 3, 4) for found in all_vertices]
        row(name, reached, count, *(f"{100 * share:.0f} %" for share in least))
    head("graph", "figure", *(f"{what}, {log2m}" for what in ("error", "greatest", "within 3 errors") for log2m in LOG2M))
    for figure in all_graph[0]:
        errors = [[error for of_seeds, _ in found[figure] for error in of_seeds] for found in all_graph]
        inside = [accuracy.mean([within for _, (*_, within) in found[figure]]) for found in all_graph]
        row(name, figure, *map(accuracy.percent, map(accuracy.mean, errors)), *map(accuracy.percent, map(max, errors)), *(f"{100 * share:.0f} %" for share in inside))


def main():
    if sys.argv[1:] not in ([], ["real"]):
        sys.exit(__doc__)
    graphs = [("pages", accuracy.listed("web.tsv")), ("club", accuracy.listed("club.tsv")), ("connected", accuracy.ring(1000, 4000, 1))]
    if sys.argv[1:]:
        graphs = [(kind, real.records(kind)) for kind in ("packages", *real.FOLDERS)]
    for name, records in graphs:
        print(f"\n**{name}**: ", end="")
        tables(name, records, 5 if sys.argv[1:] else 20)


if __name__ == "__main__":
    main()
