#!/usr/bin/env python3
"""Measures how near the figures are: exact ones against those of ./hyperball run, raw and corrected.

Usage: bench/accuracy.py        prints tables that docs/ACCURACY.md has rows of (some minutes)
       bench/accuracy.py time   prints igraph's time for exact harmonic centrality beside ours, on 30,000 pages

Four graphs, log2m 4 to 10, 20 seeds each, both estimates. The relative error of a figure is |estimate - exact| / exact, on
average over the seeds; of a figure of vertices it is also the average over all vertices where the exact one is above 0. The
last columns tell how many of the program's ten greatest are among the exact ten greatest (a vertex that is as great as the
tenth counts), on average over the seeds. Exact figures are by a search from each vertex. HYPERBALL names another program.
`time` wants igraph (on Debian: apt-get install python3-igraph).
"""
import csv
import itertools
import os
import random
import subprocess
import sys
import tempfile
import time

HERE = os.path.dirname(os.path.abspath(__file__))
PROGRAM = os.environ.get("HYPERBALL", os.path.join(HERE, "..", "hyperball"))
SEEDS = 20
SEARCHES = 4096


def generated(kind, records, seed):
    text = subprocess.run([sys.executable, os.path.join(HERE, "generate.py"), kind, str(records), str(seed)], stdout=subprocess.PIPE, check=True).stdout
    return [tuple(line.split("\t")) for line in text.decode().splitlines()]


def ring(vertices, records, seed):
    """A ring, and other edges that are drawn evenly: everybody reaches everybody."""
    draw = random.Random(seed)
    edges = [(str(v), str((v + 1) % vertices)) for v in range(vertices)]
    return edges + [(str(draw.randrange(vertices)), str(draw.randrange(vertices))) for _ in range(records - vertices)]


def groups(count, seed):
    """Groups of 3 to 12, each member with edges to two others of its group: no path leads from one group to another."""
    draw = random.Random(seed)
    edges = []
    for group in range(count):
        members = [f"{group}.{i}" for i in range(draw.randint(3, 12))]
        edges += [(member, other) for member in members for other in draw.sample(members, 2) if member != other]
    return edges


def listed(name):
    """The edges and lone vertices of an edge list in examples/."""
    with open(os.path.join(HERE, "..", "examples", name)) as lines:
        return [tuple(line.rstrip("\n").split("\t")) for line in lines if line.strip() and not line.startswith("#")]


def exact(records):
    """The neighbourhood function, and of each label the four figures: by searches from many vertices at once, as bits."""
    labels = list(dict.fromkeys(label for record in records for label in record))
    number = {label: i for i, label in enumerate(labels)}
    targets = [set() for _ in labels]
    for record in records:
        if len(record) == 2:
            targets[number[record[0]]].add(number[record[1]])
    news, reach = [len(labels)], [1] * len(labels)
    harmonic, distance = [0.0] * len(labels), [0] * len(labels)
    for first in range(0, len(labels), SEARCHES):
        last = {v: 1 << v - first for v in range(first, min(first + SEARCHES, len(labels)))}
        balls, t = dict(last), 0
        while last:
            t, came = t + 1, {}
            for source, bits in last.items():
                for target in targets[source]:
                    came[target] = came.get(target, 0) | bits
            last = {}
            for v, bits in came.items():
                known = balls.get(v, 0)
                if bits & ~known:
                    last[v], balls[v] = bits & ~known, bits | known
            news += [0] * (t + 1 - len(news))
            for v, bits in last.items():
                gain = bin(bits).count("1")
                news[t], reach[v] = news[t] + gain, reach[v] + gain
                harmonic[v], distance[v] = harmonic[v] + gain / t, distance[v] + gain * t
    figures = {label: (n, h, 1 / d if d else 0, n * n / d if d else 1) for label, n, h, d in zip(labels, reach, harmonic, distance)}
    return list(itertools.accumulate(news if len(news) < 2 or news[-1] else news[:-1])), figures


def estimated(path, words):
    """The same as the program gives them."""
    with open(path, "rb") as edges:
        report = subprocess.run([PROGRAM, "run", *words], stdin=edges, stdout=subprocess.PIPE, check=True).stdout
    totals, figures = [], {}
    for row in csv.reader(report.decode().splitlines()):
        if row[0] == "superstep":
            totals.append(float(row[2]))
        elif row[0] == "vertex":
            figures[row[1]] = tuple(float(field) for field in row[2:6])
    return totals, figures


def diameter(totals):
    """The effective diameter: within it lie nine tenths of all reachable pairs. 0 where N(0) is as much already."""
    most = 0.9 * totals[-1]
    t = next(t for t, total in enumerate(totals) if total >= most)
    return t - 1 + (most - totals[t - 1]) / (totals[t] - totals[t - 1]) if t else 0


def error(found, true):
    return abs(found - true) / true


def mean(values):
    return sum(values) / len(values)


def percent(value):
    return f"{100 * value:,.1f} %" if value < 10 else f"{100 * value:,.0f} %"


def found_of_ten(true, found, which):
    """How many of the ten greatest that were found are as great as the true tenth."""
    least = sorted((figures[which] for figures in true.values()), reverse=True)[:10][-1]
    chosen = sorted(found, key=lambda label: -found[label][which])[:10]
    return sum(true[label][which] >= least for label in chosen)


def measures(totals, true, path, log2m, kind):
    """The errors and counts of one seed after another."""
    for seed in range(SEEDS):
        said, found = estimated(path, ["--log2m", str(log2m), "--seed", str(seed), "--estimate", kind])
        yield (
            error(said[0], totals[0]),
            error(said[1], totals[1]),
            *(mean([error(found[label][i], true[label][i]) for label in true if true[label][i] > 0]) for i in range(4)),
            error(diameter(said), diameter(totals)),
            *(found_of_ten(true, found, i) for i in (1, 2, 3)),
        )


def line(totals, true, path, log2m, kind):
    """A line of a table."""
    means = [mean(column) for column in zip(*measures(totals, true, path, log2m, kind))]
    cells = [percent(value) for value in means[:7]] + [f"{value:.1f}" for value in means[7:]]
    return f"| {log2m} | {kind} | " + " | ".join(cells) + " |"


def tables():
    graphs = [
        ("strongly connected: a ring of 1,000 vertices, and 3,000 random edges", ring(1000, 4000, 1)),
        ("power-law: 20,000 records", generated("power-law", 20000, 1)),
        ("many small components: 400 groups of 3 to 12", groups(400, 1)),
        ("the club of `examples/`", listed("club.tsv")),
    ]
    for name, records in graphs:
        totals, true = exact(records)
        print(f"\n**{name}** ({len(true):,} vertices, each reached by {totals[-1] / len(true):,.1f} on average; effective diameter {diameter(totals):.2f})\n")
        print("| log2m | estimate | N(0) | N(1) | reachable | harmonic | closeness | Lin | effective diameter | top 10: harmonic | closeness | Lin |")
        print("|---|---|---|---|---|---|---|---|---|---|---|---|")
        with tempfile.NamedTemporaryFile("w") as file:
            file.writelines("\t".join(record) + "\n" for record in records)
            file.flush()
            for log2m in range(4, 11):
                for kind in ("raw", "corrected"):
                    print(line(totals, true, file.name, log2m, kind), flush=True)


def times():
    try:
        import igraph
    except ImportError:
        sys.exit("accuracy.py: igraph is not there; on Debian: apt-get install python3-igraph")
    edges = generated("web", 300000, 1)
    started = time.monotonic()
    labels = list(dict.fromkeys(label for edge in edges for label in edge))
    number = {label: i for i, label in enumerate(labels)}
    graph = igraph.Graph(len(labels), sorted({(number[a], number[b]) for a, b in edges}), directed=True)
    graph.harmonic_centrality(mode="in")
    print(f"igraph, exact: {time.monotonic() - started:.1f} s for {len(labels):,} vertices and {graph.ecount():,} edges")
    with tempfile.NamedTemporaryFile("w") as file:
        file.writelines(f"{a}\t{b}\n" for a, b in edges)
        file.flush()
        for log2m in (4, 8, 10):
            started = time.monotonic()
            estimated(file.name, ["--log2m", str(log2m)])
            print(f"hyperball run --log2m {log2m}: {time.monotonic() - started:.1f} s")


def main():
    if sys.argv[1:] not in ([], ["time"]):
        sys.exit(__doc__)
    times() if sys.argv[1:] else tables()


if __name__ == "__main__":
    main()
