#!/usr/bin/env python3
"""Measures how long Python needs to feed the program: edges of each kind are made into lines, which are thrown away.

Usage: bench/feeding.py [KINDS..] [--edges 5000000] [--package FOLDER]

Prints seconds of processor time for each kind (all, if none is named) whose library is there, for edges that are drawn evenly, five a vertex.
--package names the folder of another package to measure, as python/ of an older tree.
"""
import argparse
import os
import sys
import tempfile
import time

HERE = os.path.dirname(os.path.abspath(__file__))


def drawn(edges):
    import numpy

    return numpy.random.default_rng(1).integers(0, max(1, edges // 5), (edges, 2))


def frame(edges, kind=None):
    import pandas

    return pandas.DataFrame(drawn(edges) if kind is None else drawn(edges).astype(kind), columns=["from", "to"])


def texts(edges, form):
    return [(form % a, form % b) for a, b in drawn(edges).tolist()]


def listed(edges):
    file = tempfile.NamedTemporaryFile("w", suffix=".tsv", dir=os.environ.get("TMPDIR"), delete=False)
    with file:
        file.writelines("%d\t%d\n" % (a, b) for a, b in drawn(edges).tolist())
    return file.name


def in_networkx(edges, directed=True):
    import networkx

    graph = networkx.DiGraph() if directed else networkx.Graph()
    graph.add_edges_from(drawn(edges).tolist())
    return graph


def in_igraph(edges, directed=True, named=False):
    import igraph

    graph = igraph.Graph(max(1, edges // 5), drawn(edges), directed=directed)
    if named:
        graph.vs["name"] = [f"vertex {i}" for i in range(graph.vcount())]
    return graph


def in_scipy(edges):
    import numpy
    import scipy.sparse

    ends = drawn(edges)
    return scipy.sparse.csr_matrix((numpy.ones(edges), (ends[:, 0], ends[:, 1])), shape=(max(1, edges // 5),) * 2)


def in_graph_tool(edges):
    import graph_tool

    graph = graph_tool.Graph(directed=True)
    graph.add_vertex(max(1, edges // 5))
    graph.add_edge_list(drawn(edges))
    return graph


KINDS = {
    "numpy": drawn,
    "numpy, undirected": (drawn, True),
    "numpy, uint64 of 20 digits": lambda edges: drawn(edges).astype("uint64") + 2**63,
    "numpy, floats": lambda edges: drawn(edges).astype(float),
    "pandas": frame,
    "pandas, undirected": (frame, True),
    "pandas, floats": lambda edges: frame(edges, float),
    "pandas, texts": lambda edges: frame(edges, str),
    "pairs of numbers": lambda edges: list(map(tuple, drawn(edges).tolist())),
    "pairs of numbers, undirected": (lambda edges: list(map(tuple, drawn(edges).tolist())), True),
    "pairs of floats": lambda edges: list(map(tuple, drawn(edges).astype(float).tolist())),
    "pairs of texts": lambda edges: texts(edges, "page %d"),
    "pairs of texts with #": lambda edges: texts(edges, "page#%d"),
    "pairs of texts that begin with #": lambda edges: texts(edges, "#%d"),
    "networkx": in_networkx,
    "networkx, undirected": lambda edges: in_networkx(edges, False),
    "igraph": in_igraph,
    "igraph, undirected": lambda edges: in_igraph(edges, False),
    "igraph, named": lambda edges: in_igraph(edges, True, True),
    "scipy": in_scipy,
    "graph-tool": in_graph_tool,
    "a file": listed,
    "a file, undirected": (listed, True),
}


def measure(kind, count):
    from hyperball.sources import source_of

    made = KINDS[kind]
    make, undirected = made if isinstance(made, tuple) else (made, False)
    try:
        edges = make(count)
    except ImportError as error:
        return f"({error.name} is not there)"
    try:
        started = time.process_time()
        for _ in source_of(edges, undirected).pieces():
            pass
        return f"{time.process_time() - started:.2f} s"
    except (TypeError, ValueError) as error:
        return f"({error})"
    finally:
        if isinstance(edges, str):
            os.remove(edges)


def main():
    parser = argparse.ArgumentParser(description=__doc__, formatter_class=argparse.RawDescriptionHelpFormatter)
    parser.add_argument("kinds", nargs="*")
    parser.add_argument("--edges", type=int, default=5000000)
    parser.add_argument("--package", default=os.path.join(HERE, "..", "python"))
    words = parser.parse_args()
    unknown = set(words.kinds) - set(KINDS)
    if unknown:
        sys.exit(f"feeding.py: the kinds are {'; '.join(KINDS)}")
    sys.path.insert(0, words.package)
    for kind in words.kinds or KINDS:
        print(f"{kind}: {measure(kind, words.edges)}", flush=True)


if __name__ == "__main__":
    main()
