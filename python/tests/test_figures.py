"""Figures of the program against exact ones, by bounds that hold for sure.

A ball of n vertices, of which k share a register with an earlier one, fills n - k of 1024 registers. Its corrected estimate
is then the sum of 1024 / (1024 - i) for i below n - k: at most k below n, and at most n * n / (2 * (1024 - n)) above it.
Call the greater of the two, over a graph, its slack. A vertex alone is estimated as 1, exactly. Harmonic centrality weighs
an estimate at t by 1/t - 1/(t + 1), and these add up to at most 1: so it is off by the slack at most. The sum of distances
over T supersteps weighs the last estimate T, and each before it 1.
"""
import random
import unittest

import hyperball
from given import balls, shared


def slack(sizes, seed):
    vertices = len(sizes)
    largest = max(size[-1] for size in sizes.values())
    return max(shared(vertices, seed), largest**2 / (2 * (1024 - largest))) + 1e-5 * largest


class FiguresOfSmallGraphs(unittest.TestCase):
    def compare(self, records, **options):
        sizes = balls(records)
        off = slack(sizes, options.get("seed", 0))
        report = hyperball.run(records, **options)
        self.assertEqual(report.vertices.label, list(sizes))
        self.assertTrue(report.stable)
        self.assertEqual(report.supersteps[0], len(sizes))
        for vertex in report.vertices:
            size = sizes[vertex.label]
            steps = len(size) - 1
            gains = [(t, size[t] - size[t - 1]) for t in range(1, len(size))]
            distances = sum(t * gain for t, gain in gains)
            self.assertAlmostEqual(vertex.reachable, size[-1], delta=off)
            self.assertAlmostEqual(vertex.harmonic, sum(gain / t for t, gain in gains), delta=off)
            self.assertAlmostEqual(vertex.distances, distances, delta=2 * steps * off + 1e-3)
            if vertex.distances:
                self.assertAlmostEqual(vertex.closeness * vertex.distances, 1)
                self.assertAlmostEqual(vertex.lin, vertex.reachable**2 / vertex.distances, delta=1e-5)
        for t, total in enumerate(report.supersteps):
            self.assertAlmostEqual(total, sum(size[min(t, len(size) - 1)] for size in sizes.values()), delta=off * len(sizes))

    def test_path(self):
        self.compare([(i, i + 1) for i in range(12)])

    def test_star_and_a_vertex_alone(self):
        self.compare([(f"leaf {i}", "hub") for i in range(20)] + [("alone",)])

    def test_drawn_graphs(self):
        for seed in range(6):
            with self.subTest(seed=seed):
                draw = random.Random(seed)
                self.compare([(draw.randrange(40), draw.randrange(40)) for _ in range(70)], seed=seed)

    def test_other_plans_have_the_same_report(self):
        records = [(i, (i * 7 + 1) % 40) for i in range(40)]
        first = hyperball.run(records)
        for options in ({"parts": 3}, {"parts": 2, "replicas": 2, "keep": 1}, {"keep": 1}, {"large": True}):
            with self.subTest(options):
                other = hyperball.run(records, **options)
                self.assertEqual((other.vertices[:], other.supersteps), (first.vertices[:], first.supersteps))

    def test_limit(self):
        with self.assertWarns(RuntimeWarning):
            report = hyperball.run([(i, i + 1) for i in range(12)], limit=3)
        self.assertEqual((report.end, report.stable, len(report.supersteps)), (3, False, 4))

    def test_counted(self):
        records = [("a", "b"), ("b", "c"), ("d", "c")]
        report = hyperball.run(records, counted=["a", "d"])
        self.assertEqual([round(x) for x in report.vertices.reachable], [1, 1, 2, 1])
        self.assertAlmostEqual(report["c"].harmonic, 1.5, delta=0.01)

    def test_raw(self):
        self.assertGreater(hyperball.run([("a", "b")], estimate="raw")["a"].reachable, 700)


if __name__ == "__main__":
    unittest.main()
