"""Several seeds: the mean of each figure, and its standard error."""
import itertools
import math
import random
import statistics
import tempfile
import unittest
from pathlib import Path

import hyperball
from given import ECHO, balls, program
from hyperball import bars

EDGES = [(i, (i * i + 1) % 97) for i in range(97)]


class Repeats(unittest.TestCase):
    def test_mean_and_error(self):
        repeated = hyperball.repeat(EDGES, seeds=range(5), log2m=4)
        alone = [hyperball.run(EDGES, seed=seed, log2m=4) for seed in range(5)]
        self.assertEqual(repeated.label, alone[0].vertices.label)
        for figure in (*hyperball.FIGURES, "distances"):
            of_seeds = [report.vertices.figures(figure)[7] for report in alone]
            estimate = getattr(repeated.vertices[7], figure)
            self.assertAlmostEqual(estimate.mean, statistics.mean(of_seeds))
            self.assertAlmostEqual(estimate.spread, statistics.stdev(of_seeds) / 5**0.5)
            self.assertEqual(estimate.error, max(estimate.spread, estimate.counters))
            self.assertEqual(list(repeated.figures(figure))[7], estimate)
        totals = [report.supersteps[1] for report in alone]
        self.assertAlmostEqual(repeated.supersteps[1].mean, statistics.mean(totals))
        self.assertAlmostEqual(repeated.gain.mean, statistics.mean([report.gain for report in alone]))
        self.assertAlmostEqual(repeated.mean_distance().mean, statistics.mean([report.mean_distance() for report in alone]))
        self.assertAlmostEqual(repeated.effective_diameter().spread,
                               statistics.stdev([report.effective_diameter() for report in alone]) / 5**0.5)
        self.assertEqual(len(repeated.supersteps), max(len(report.supersteps) for report in alone))
        self.assertGreater(repeated.spid().mean, 0)

    def test_top(self):
        repeated = hyperball.repeat(EDGES, seeds=range(3))
        means = [vertex.harmonic.mean for vertex in repeated.top("harmonic", 97)]
        self.assertEqual(means, sorted(means, reverse=True))
        self.assertEqual([vertex.label for vertex in repeated.top(count=2)], [vertex.label for vertex in repeated.top("harmonic", 97)[:2]])

        self.assertEqual(repeated.top(2), repeated.top("harmonic", 2))

    def test_vertices(self):
        repeated = hyperball.repeat([("a", "b"), ("b", "c")], seeds=3)
        self.assertEqual([report.vertices.label for report in repeated.reports], [["a", "b", "c"]] * 3)
        self.assertEqual([vertex.label for vertex in repeated], ["a", "b", "c"])
        self.assertEqual(repeated["b"], repeated.vertices[1])
        self.assertEqual(repeated.vertices[1:], list(repeated)[1:])
        self.assertTrue("c" in repeated and "d" not in repeated)
        with self.assertRaises(KeyError):
            repeated["d"]

    def test_counted_is_read_for_each_seed(self):
        repeated = hyperball.repeat(EDGES, seeds=(1, 2), counted=iter([0, 1]))
        self.assertEqual([round(report.supersteps[0]) for report in repeated.reports], [2, 2])

    def test_none_where_a_seed_has_none(self):
        self.assertIsNone(hyperball.repeat([("a",)], seeds=(1, 2)).mean_distance())

    def test_edges_that_are_gone(self):
        with program(ECHO):
            for edges in (iter(EDGES), (edge for edge in EDGES), open(__file__)):
                with self.subTest(edges), self.assertRaisesRegex(ValueError, "can be read once only"):
                    hyperball.repeat(edges)
                if hasattr(edges, "close"):
                    edges.close()

    def test_seeds(self):
        for seeds in ([], [1], [1, 1], 1):
            with self.subTest(seeds), self.assertRaisesRegex(ValueError, "two seeds or more"):
                hyperball.repeat(EDGES, seeds=seeds)

    def test_edges_that_change(self):
        with tempfile.TemporaryDirectory() as folder:
            path = Path(folder, "edges.tsv")
            path.write_text("a\tb\n")

            def seeds():
                yield 1
                yield 2

            def change(line):
                path.write_text("a\tb\nb\tc\n")

            with self.assertRaisesRegex(ValueError, "others than they were"):
                hyperball.repeat(path, seeds=seeds(), progress=change)


def draws(places, empty):
    """How many draws it takes on average until all but so many of the places are taken."""
    return sum(places / k for k in range(empty + 1, places + 1))


class Bars(unittest.TestCase):
    def test_deviation_of_few(self):
        """All ways in which members fall into 8 registers, one after another, counted."""
        for members in (1, 2, 3, 4, 5):
            found = [draws(8, 8 - len(set(places))) for places in itertools.product(range(8), repeat=members)]
            self.assertAlmostEqual(statistics.mean(found), members)  # right on average
            self.assertAlmostEqual(bars.deviation(members, 8) / max(1e-9, statistics.pstdev(found)), members > 1, delta=0.02)

    def test_deviation_of_many(self):
        for share in (0.1, 1, 2):  # that of linear counting
            expected = math.sqrt(1024 * (math.exp(share) - share - 1))
            self.assertAlmostEqual(bars.deviation(share * 1024, 1024) / expected, 1, delta=0.02)
        self.assertAlmostEqual(bars.deviation(10**6, 256), 65000)
        self.assertAlmostEqual(bars.deviation(2, 1024, corrected=False), 0.065)
        self.assertEqual((bars.bias(2000, 1024), bars.bias(10**5, 1024)), (0, 0))
        self.assertAlmostEqual(bars.bias(3072, 1024) / 3072, 0.0095, delta=0.002)  # (as 1,500 drawn counters had it)

    def test_of_two(self):
        """Two of which one reaches the other: both share one of m registers with the chance 1/m, and then one is lost."""
        registers, exact = 16, {"reachable": 2, "harmonic": 1, "closeness": 1, "lin": 4, "distances": 1}
        alone = {"reachable": 1, "harmonic": 0, "closeness": 0, "lin": 1, "distances": 0}
        found = bars.of_vertex(2, 1, 1, bars.deviation(2, registers))
        for figure, value in exact.items():
            expected = abs(value - alone[figure]) / math.sqrt(registers - 1)
            self.assertAlmostEqual(found[figure], expected)

    def test_of_draws(self):
        """At various distances: drawn registers against what is worked out from three figures."""
        draw = random.Random(1)
        for registers, distances in ((64, [1] * 5 + [2] * 20 + [3] * 10), (64, [1] * 100), (32, [1, 2, 3, 4, 5, 6]), (256, [1] * 30 + [2] * 300)):
            sums = []
            for _ in range(3000):
                taken, found = {draw.randrange(registers)}, [0.0, 0.0]
                for distance in distances:
                    place = draw.randrange(registers)
                    if place not in taken:
                        gain = registers / (registers - len(taken))
                        taken.add(place)
                        found = [found[0] + gain / distance, found[1] + gain * distance]
                sums.append(found)
            exact = [sum(1 / distance for distance in distances), sum(distances)]
            counters = bars.of_vertex(len(distances) + 1, *exact, bars.deviation(len(distances) + 1, registers))
            for name, values in zip(("harmonic", "distances"), zip(*sums)):
                with self.subTest(name, distances=len(distances)):
                    self.assertTrue(0.95 < counters[name] / statistics.pstdev(values) < 1.5, counters[name] / statistics.pstdev(values))

    def test_bars_hold_the_exact_figures(self):
        """Of vertices that few reach. (Where all seeds agree the bar is not 0, but for a vertex that none reaches.)"""
        draw = random.Random(3)
        edges = [(f"{group}.{draw.randrange(6)}", f"{group}.{draw.randrange(6)}") for group in range(60) for _ in range(6)]
        sizes = balls(edges)
        for log2m in (6, 10):
            inside = dict.fromkeys(hyperball.FIGURES, 0)
            repeated = hyperball.repeat(edges, seeds=4, log2m=log2m)
            reached = [vertex for vertex in repeated if sizes[vertex.label][-1] > 1]
            for vertex in reached:
                gains = [(t, after - before) for t, (before, after) in enumerate(zip(sizes[vertex.label], sizes[vertex.label][1:]), 1)]
                size, far = sizes[vertex.label][-1], sum(t * gain for t, gain in gains)
                for figure, exact in zip(hyperball.FIGURES, (size, sum(gain / t for t, gain in gains), 1 / far, size * size / far)):
                    estimate = getattr(vertex, figure)
                    self.assertGreater(estimate.counters, 0)
                    inside[figure] += abs(estimate.mean - exact) <= 3 * estimate.error
            for figure, count in inside.items():
                self.assertGreaterEqual(count, 0.97 * len(reached), (log2m, figure))
        alone = next(vertex for vertex in repeated if sizes[vertex.label][-1] == 1)
        self.assertEqual([alone.reachable.error, alone.harmonic.error, alone.lin.error], [0, 0, 0])

    def test_bars_of_raw_figures(self):
        vertex = hyperball.repeat(EDGES, seeds=4, log2m=6, estimate="raw").vertices[0]
        self.assertAlmostEqual(vertex.reachable.counters, vertex.reachable.mean * 1.04 / 8 / 2)

    def test_bars_of_the_graph(self):
        repeated = hyperball.repeat([(i, i + 1) for i in range(4)], seeds=2)
        for estimate in (*repeated.supersteps[1:], repeated.gain, repeated.mean_distance(), repeated.effective_diameter(), repeated.spid()):
            self.assertGreater(estimate.counters, 0)
        self.assertLessEqual(abs(repeated.mean_distance().mean - 2), 3 * repeated.mean_distance().error)
        self.assertEqual(repeated.supersteps[0], (5, 0, 0, 0))


if __name__ == "__main__":
    unittest.main()
