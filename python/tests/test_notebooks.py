"""What a notebook shows, pictures, and how progress is told. Tests of libraries that are not there are skipped."""
import contextlib
import io
import re
import sys
import types
import unittest
import xml.etree.ElementTree as tree
from unittest import mock

import hyperball
from given import PAGES, REPORT
from hyperball import views
from hyperball.repeats import Estimate

try:
    import matplotlib
except ImportError:
    matplotlib = None

EDGES = [(i, (i * i + 1) % 97) for i in range(97)]


def cells(text):
    """The texts of all cells, from a page that has to be whole."""
    return ["".join(cell.itertext()) for cell in tree.fromstring(text).iter() if cell.tag in ("td", "th")]


class Pages(unittest.TestCase):
    def test_report(self):
        page = hyperball.Report.of(REPORT.splitlines())._repr_html_()
        found = cells(page)
        for name, value in (("vertices", "3"), ("pairs of two vertices", "3"), ("mean distance", "1.33"), ("effective diameter", "1.40"),
                            ("supersteps", "3, stable"), ("c", "3.0118"), ("a", "1")):
            self.assertEqual(found[found.index(name) + 1], value)
        self.assertEqual([found.index(label) for label in "cba"], sorted(found.index(label) for label in "cba"))
        points = re.search('<polyline points="([^"]*)"', page).group(1).split()
        heights = [float(point.split(",")[1]) for point in points]
        self.assertEqual(len(points), 4)
        self.assertEqual(heights, sorted(heights, reverse=True))
        self.assertIn("effective diameter 1.40", page)

    def test_first_ten(self):
        report = hyperball.run(EDGES)
        self.assertEqual(len(re.findall("<tr>", report._repr_html_())), 5 + 1 + 10)
        self.assertEqual(cells(report.vertices._repr_html_())[5::5], [str(label) for label in report.vertices.label[:10]])
        self.assertIn("and 87 more", report.vertices._repr_html_())
        self.assertNotIn("more", hyperball.Report.of(REPORT.splitlines()).vertices._repr_html_())

    def test_repeated(self):
        repeated = hyperball.repeat(EDGES, seeds=3, log2m=4)
        found = cells(repeated._repr_html_())
        first = repeated.top(1)[0]
        self.assertIn(views.number(first.harmonic), found)
        self.assertIn(" ± ", found[found.index("effective diameter") + 1])
        self.assertIn(views.number(repeated.vertices[4].lin), cells(repeated.vertices._repr_html_()))

    def test_labels_are_escaped(self):
        labels = ["<script>alert(1)</script>", 'a & "b"', ("<i>", 1), "\udcff", "x" * 300]
        for page in (hyperball.run(list(zip(labels, labels[1:]))), hyperball.repeat(list(zip(labels, labels[1:])), seeds=2)):
            for text in (page._repr_html_(), page.vertices._repr_html_()):
                text.encode()
                self.assertNotIn("<script", text)
                self.assertNotIn("<i>", text)
                self.assertLessEqual({labels[0], labels[1], "('<i>', 1)", "\\udcff", "x" * 79 + "\u2026"}, set(cells(text)))

    def test_graphs_with_next_to_nothing(self):
        for edges in ([], [("a",)]):
            for page in (hyperball.run(edges), hyperball.repeat(edges, seeds=2)):
                self.assertIn("none", cells(page._repr_html_()))
                self.assertNotIn("svg", page._repr_html_())

    def test_numbers(self):
        for mean, error, said in ((210.93, 1.94, "210.9 ± 1.9"), (48155.9, 553.3, "48,156 ± 553"), (2.000978, 0.0110475, "2.001 ± 0.011"),
                                  (1.1167e-9, 1.9e-11, "(1.117 ± 0.019)e-9"), (1.1167e-5, 1.94e-7, "(1.117 ± 0.019)e-5"),
                                  (0.0155, 0.0002, "0.01550 ± 0.00020"), (1, 0, "1"), (0, 0.5, "0.00 ± 0.50")):
            self.assertEqual(views.number(Estimate(mean, error, error, 0)), said)
        self.assertEqual([views.number(value) for value in (0.0, 1.116e-9, 307.83199, 123456.7)], ["0", "1.116e-09", "307.832", "123,457"])


@unittest.skipUnless(matplotlib, "matplotlib is not there")
class Pictures(unittest.TestCase):
    def test_report(self):
        report = hyperball.Report.read(PAGES / "examples" / "web.csv")
        left, right = report.plot().axes
        self.assertEqual(list(left.lines[0].get_ydata()), report.supersteps)
        self.assertEqual(list(right.lines[0].get_ydata()), sorted(report.vertices.harmonic, reverse=True))

    def test_error_bars(self):
        repeated = hyperball.repeat(EDGES, seeds=3, log2m=4)
        _, right = repeated.plot().axes
        (bars,) = right.containers
        ends = [(low[1], high[1]) for low, high in bars.lines[2][0].get_segments()]
        first = max(repeated.figures("harmonic"))
        self.assertAlmostEqual(ends[0][0], first.mean - first.error)
        self.assertAlmostEqual(ends[0][1], first.mean + first.error)

    def test_many_have_a_band(self):
        _, right = hyperball.repeat([(i, 0) for i in range(200)], seeds=2).plot().axes
        self.assertEqual((len(right.containers), len(right.collections), right.get_xscale()), (0, 1, "log"))

    def test_a_notebook_is_given_a_picture(self):
        self.assertEqual(hyperball.run(EDGES).plot()._repr_png_()[:4], b"\x89PNG")
        hyperball.run([]).plot()


class WithoutMatplotlib(unittest.TestCase):
    def test_says_what_is_wanted(self):
        with mock.patch.dict(sys.modules, {"matplotlib": None, "matplotlib.figure": None}), self.assertRaisesRegex(ImportError, "python3-matplotlib"):
            hyperball.run([]).plot()


class Terminal(io.StringIO):
    def isatty(self):
        return True


class Bars(unittest.TestCase):
    def told(self, edges, call, file=None, **modules):
        with mock.patch.dict(sys.modules, modules), contextlib.redirect_stderr(file or Terminal()) as told:
            call(edges, progress=True)
        return told.getvalue()

    def stand_in(self):
        """A tqdm, and what its bars were told."""
        made = []

        class Bar:
            def __init__(self, **options):
                self.options, self.said, self.closed, self.n, self.total = options, [], False, 0, None
                made.append(self)

            def set_description(self, text):
                self.said.append((text, self.n, self.total))

            def close(self):
                self.closed = True

        return types.SimpleNamespace(tqdm=Bar), made

    def test_a_bar(self):
        tqdm, made = self.stand_in()
        self.assertEqual(self.told([("a", "b"), ("b", "c")], hyperball.run, tqdm=tqdm), "")
        (bar,) = made
        self.assertEqual(bar.said[2:], [("superstep 1", 1, 3), ("superstep 2", 2, 3), ("superstep 3", 3, 3), ("the report is written", 3, 3)])
        self.assertTrue(bar.closed)

    def test_one_bar_for_all_seeds(self):
        tqdm, made = self.stand_in()
        self.told([("a", "b")], lambda edges, **options: hyperball.repeat(edges, seeds=3, **options), tqdm=tqdm)
        (bar,) = made
        self.assertEqual([text for text, _, _ in bar.said if "written" in text], [f"run {i} of 3, the report is written" for i in (1, 2, 3)])
        self.assertTrue(bar.closed)

    def test_lines_elsewhere(self):
        tqdm, made = self.stand_in()
        self.assertIn("hyperball: superstep 1, 1 of 2", self.told([("a", "b")], hyperball.run, tqdm=None))
        self.assertIn("hyperball: superstep 1, 1 of 2", self.told([("a", "b")], hyperball.run, io.StringIO(), tqdm=tqdm))
        self.assertEqual(made, [])
        self.assertEqual(self.told([("a", "b")], hyperball.run, io.StringIO(), tqdm=tqdm, ipykernel=tqdm), "")
        self.assertEqual(len(made), 1)


if __name__ == "__main__":
    unittest.main()
