"""Reports that were saved, and their columns."""
import random
import tempfile
import tracemalloc
import unittest
from fractions import Fraction
from pathlib import Path

from given import PAGES, REPORT
from hyperball import Report


class Reads(unittest.TestCase):
    def test_saved_report(self):
        report = Report.read(PAGES / "examples" / "web.csv")
        self.assertEqual((len(report.vertices), report.end, report.stable), (323, len(report.supersteps) - 1, True))
        self.assertEqual(report.vertices[0][:3], ("0", 324.078169, 231.843801))
        self.assertEqual([vertex.label for vertex in report.top("harmonic", 5)], ["0", "3", "1", "5", "27"])

    def test_columns(self):
        report = Report.of(REPORT.splitlines())
        vertices = report.vertices
        self.assertEqual(vertices.reachable[:], [1.0, 2.003921, 3.011795])
        self.assertEqual((vertices.lin[-1], vertices.harmonic[1], list(vertices.empty)), (3.003941, 1.003921, [255, 254, 253]))
        self.assertEqual(list(vertices), vertices[:])
        self.assertEqual(report["b"], vertices[1])
        self.assertTrue("b" in report and "z" not in report and 0 not in report)
        self.assertEqual(vertices.closeness[0], 0)
        self.assertAlmostEqual(vertices.distances[2], 3.0196695, places=7)
        self.assertEqual((report.gain, report.totals()[1], report.news()), (1.255889, 5007842, [3000000, 2007842, 1007874, 0]))
        for wrong in (lambda: vertices[3], lambda: report["z"], lambda: vertices.reachable[3]):
            with self.assertRaises((IndexError, KeyError)):
                wrong()
        with self.assertRaisesRegex(ValueError, "'degree' is no figure"):
            report.top("degree")
        with self.assertRaisesRegex(ValueError, "from 0 to 1"):
            report.effective_diameter(90)

    def test_quotes(self):
        report = Report.of(REPORT.replace("vertex,b,", 'vertex,"b, ""the"" second",').splitlines())
        self.assertEqual(report.vertices.label, ["a", 'b, "the" second', "c"])

    def test_what_is_none(self):
        lines = REPORT.splitlines()
        for wrong in ([], lines[:3], lines[:5], lines[1:], lines[:4] + lines[5:], [*lines, ""], [*lines, lines[0]], ["a,b,c"],
                      lines[:7] + [lines[7][:-4]], lines[:7] + [lines[7].replace("2.003921", "2.00392")],
                      lines[:7] + [lines[7].replace("2.003921", "-2.003921")], lines[:6] + ["vertex,a,1,2,3,4,5"]):
            with self.subTest(wrong), self.assertRaisesRegex(ValueError, "no report"):
                Report.of(wrong)
        with self.assertRaisesRegex(ValueError, "README.md is no report of hyperball run"):
            Report.read(PAGES / "README.md")

    def test_lines_that_end_otherwise(self):
        with tempfile.TemporaryDirectory() as folder:
            path = Path(folder, "report.csv")
            path.write_bytes(REPORT.replace("\n", "\r\n").encode())
            self.assertEqual(Report.read(path).vertices[:], Report.of(REPORT.splitlines()).vertices[:])

    def test_great_figures(self):
        most, index = 2**63 - 1, 2**64 + 5
        line = f"vertex,x,{most // 10**6}.{most % 10**6:06d},0.000000,0.000000,{index // 10**6}.{index % 10**6:06d},0"
        vertices = Report.of([*REPORT.splitlines(), line, line]).vertices
        self.assertEqual((vertices.millionths(3), vertices.millionths(4)), ((most, 0, index),) * 2)
        self.assertEqual(vertices.millionths(2), (3011795, 1507858, 3003941))

    def test_order_by_closeness_is_exact(self):
        draw = random.Random(1)
        head = REPORT.splitlines()[:6]
        pairs = [(draw.choice((10**12, 10**12 + 1, draw.randrange(1, 2**63))), draw.randrange(2, 2**63)) for _ in range(300)]
        lines = [f"vertex,{i},{a // 10**6}.{a % 10**6:06d},1.000000,0.000000,{b // 10**6}.{b % 10**6:06d},0" for i, (a, b) in enumerate(pairs)]
        vertices = Report.of(head + lines).vertices
        by_fractions = sorted(range(300), key=lambda i: Fraction(pairs[i][1], pairs[i][0] ** 2), reverse=True)
        self.assertEqual(vertices.closeness.first(300), by_fractions)
        self.assertEqual(vertices.distances.first(300), sorted(range(300), key=lambda i: Fraction(pairs[i][0] ** 2, pairs[i][1]), reverse=True))

    def test_memory(self):
        head, count = REPORT.splitlines()[:6], 50000
        lines = (f"vertex,{1000000 + i},324.078169,187.313971,0.002124,223.078511,{i % 1024}" for i in range(count))
        tracemalloc.start()
        report = Report.of(line for part in (head, lines) for line in part)
        size, _ = tracemalloc.get_traced_memory()
        tracemalloc.stop()
        self.assertEqual(len(report.vertices), count)
        self.assertLess(size / count, 120)  # of these 56 are the label's text

    def test_no_distances(self):
        report = Report.of(["superstep,0,1.000000", "superstep,1,1.000000", "end,1,stable", "gain,0.000000",
                            "vertex,a,1.000000,0.000000,0.000000,1.000000,15"])
        self.assertEqual((report.effective_diameter(), report.mean_distance(), report.spid()), (None, None, None))
        self.assertEqual((report["a"].closeness, report["a"].distances), (0, 0))
        self.assertIsNone(report.vertices.mean_distance(0, report.alone()))


if __name__ == "__main__":
    unittest.main()
