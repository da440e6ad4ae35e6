"""Centralities by networkx's names against networkx's own, which are exact, and the package as its backend.

Of the graphs here, of at most 77 nodes, an estimate at log2m 10 is off by at most the slack of test_figures: the nodes that
share a register, or what the correction adds. Closeness, a quotient of two such figures, is compared to a tenth.
"""
import os
import subprocess
import sys
import tempfile
import textwrap
import unittest
import zipfile
from pathlib import Path

import hyperball
from given import PAGES, shared
from hyperball.program import find
from test_sources import networkx


def slack(graph):
    return max(shared(len(graph), 0), len(graph)**2 / (2 * (1024 - len(graph)))) + 1e-3


def graphs():
    """Some directed, some not, connected or not, with nodes of several types."""
    alone = networkx.compose(networkx.path_graph(5), networkx.relabel_nodes(networkx.cycle_graph(7), str))
    alone.add_node((1, 2))
    return [networkx.les_miserables_graph(), networkx.gnp_random_graph(60, 0.05, seed=3, directed=True), networkx.karate_club_graph(), alone,
            networkx.DiGraph([("a", "b"), ("b", "c")]), networkx.MultiDiGraph([(1, 2), (1, 2), (2, 2), (3, 2)])]


@unittest.skipUnless(networkx, "networkx is not there")
class AsNetworkx(unittest.TestCase):
    def near(self, found, exact, most, share=0.0):
        self.assertEqual(list(found), list(exact))
        for node, value in exact.items():
            self.assertAlmostEqual(found[node], value, delta=most + share * value)

    def test_harmonic(self):
        for graph in graphs():
            with self.subTest(graph):
                self.near(hyperball.harmonic_centrality(graph), {node: networkx.harmonic_centrality(graph)[node] for node in graph}, slack(graph))

    def test_harmonic_of_some_nodes(self):
        graph = graphs()[1]
        exact = networkx.harmonic_centrality(graph, nbunch=[5, 7, 9, 1000])
        found = hyperball.harmonic_centrality(graph, [9, 5, 7, 1000])
        self.assertEqual(list(found), [9, 5, 7])
        self.near({node: found[node] for node in exact}, exact, slack(graph))
        self.assertEqual(hyperball.harmonic_centrality(graph, 5), {5: found[5]})

    def test_harmonic_over_some_nodes(self):
        for graph in graphs():
            chosen = list(graph)[:5] + ["none of it"]
            exact = networkx.harmonic_centrality(graph, sources=chosen)
            self.near(hyperball.harmonic_centrality(graph, sources=chosen), {node: exact[node] for node in graph}, slack(graph))

    def test_closeness(self):
        for graph in graphs():
            for improved in (True, False):
                with self.subTest(graph, improved=improved):
                    exact = networkx.closeness_centrality(graph, wf_improved=improved)
                    self.near(hyperball.closeness_centrality(graph, wf_improved=improved), exact, 1e-4, 0.1)

    def test_closeness_of_one_node(self):
        graph = networkx.les_miserables_graph()
        self.assertEqual(hyperball.closeness_centrality(graph, "Valjean"), hyperball.closeness_centrality(graph)["Valjean"])
        with self.assertRaises(KeyError):
            hyperball.closeness_centrality(graph, "nobody")

    def test_closeness_of_raw_estimates(self):
        path = networkx.path_graph(3, create_using=networkx.DiGraph)
        found = hyperball.closeness_centrality(path, estimate="raw", wf_improved=False)
        self.assertEqual(found[0], 0)  # (none reaches it, though its raw estimate is 738)
        self.assertTrue(0.5 < found[2] < 1)

    def test_lin(self):
        graph = networkx.les_miserables_graph()
        exact = {node: len(lengths)**2 / sum(lengths.values()) for node, lengths in networkx.shortest_path_length(graph)}
        self.near({node: hyperball.lin_index(graph)[node] for node in exact}, exact, 0, 0.1)
        self.assertEqual(hyperball.lin_index(networkx.DiGraph([(1, 2)]), [1]), {1: 1.0})

    def test_options(self):
        graph = networkx.les_miserables_graph()
        report = hyperball.run(graph, log2m=6, seed=3)
        self.assertEqual(list(hyperball.harmonic_centrality(graph, log2m=6, seed=3).values()), list(report.vertices.harmonic))
        for function in (hyperball.harmonic_centrality, hyperball.closeness_centrality):
            with self.assertRaisesRegex(NotImplementedError, "distance is None, not 'weight'"):
                function(graph, distance="weight")


class Named(unittest.TestCase):
    def test_other_edges(self):
        edges = [("a", "b"), ("b", "c")]
        self.assertEqual(list(hyperball.harmonic_centrality(edges)), ["a", "b", "c"])
        self.assertEqual(set(hyperball.harmonic_centrality(edges, ["c", "a"])), {"a", "c"})
        self.assertAlmostEqual(hyperball.harmonic_centrality(edges, sources=["a"])["c"], 0.5, delta=0.01)
        self.assertAlmostEqual(hyperball.closeness_centrality(edges)["c"], 2 / 3, delta=0.01)
        self.assertAlmostEqual(hyperball.lin_index(edges)["c"], 3, delta=0.01)
        self.assertEqual(hyperball.closeness_centrality([]), {})


# Run where the package is installed, so that networkx finds it.
BACKEND = """
    import warnings
    import networkx, hyperball
    warnings.simplefilter("error")
    graph = networkx.les_miserables_graph()
    for times in range(2):
        found = networkx.harmonic_centrality(graph, backend="hyperball")
        assert found == hyperball.harmonic_centrality(graph), found
    assert found != networkx.harmonic_centrality(graph)
    chosen = ["Valjean", "Cosette"]
    assert networkx.harmonic_centrality(graph, chosen, sources=chosen, backend="hyperball", log2m=8) == \\
        hyperball.harmonic_centrality(graph, chosen, sources=chosen, log2m=8)
    closeness = networkx.closeness_centrality(graph, "Valjean", wf_improved=False, backend="hyperball", seed=1)
    assert closeness == hyperball.closeness_centrality(graph, "Valjean", wf_improved=False, seed=1)
    graph.add_edge("Valjean", "nobody")
    assert "nobody" in networkx.closeness_centrality(graph, backend="hyperball")
    assert not graph.__networkx_cache__.get("backends", {}).get("hyperball")
    exact = networkx.harmonic_centrality(graph, distance="weight")
    try:
        networkx.harmonic_centrality(graph, distance="weight", backend="hyperball")
        raise AssertionError("weights were taken")
    except NotImplementedError as error:
        print(error)
    with networkx.config.backend_priority(algos=["hyperball"]):
        assert networkx.harmonic_centrality(graph) == hyperball.harmonic_centrality(graph)
        assert networkx.harmonic_centrality(graph, distance="weight") == exact
    for function in (networkx.harmonic_centrality, networkx.closeness_centrality):
        assert "hyperball" in function.backends and "An approximation: estimates by HyperBall" in function.__doc__, function.__doc__
    assert "hyperball" not in networkx.betweenness_centrality.backends
    print(networkx.pagerank.backends)
"""


@unittest.skipUnless(networkx and tuple(map(int, networkx.__version__.split(".")[:2])) >= (3, 3), "networkx 3.3 is not there")
class Backend(unittest.TestCase):
    def test_backend(self):
        with tempfile.TemporaryDirectory() as folder:
            made = subprocess.run([sys.executable, "-c", "import backend, sys; print(backend.build_wheel(sys.argv[1]))", folder], check=True,
                                  cwd=PAGES / "python", capture_output=True, text=True).stdout.strip()
            with zipfile.ZipFile(Path(folder, made)) as wheel:
                wheel.extractall(folder)
            environment = {**os.environ, "PYTHONPATH": folder, "HYPERBALL": find()}
            done = subprocess.run([sys.executable, "-c", textwrap.dedent(BACKEND)], cwd=folder, capture_output=True, text=True, env=environment)
            self.assertEqual(done.returncode, 0, done.stderr)
            self.assertNotIn("hyperball", done.stdout.splitlines()[-1])


if __name__ == "__main__":
    unittest.main()
