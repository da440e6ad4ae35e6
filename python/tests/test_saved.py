"""Reports that are saved and read again, what made them, and what is said of those that the limit ended."""
import os
import subprocess
import tempfile
import unittest
import warnings
from decimal import Decimal
from pathlib import Path
from unittest import mock

import hyperball
from given import ECHO, PAGES, REPORT, program
from hyperball import Options, Report
from hyperball.program import find, version

CHAIN = [(i, i + 1) for i in range(12)]


class Saved(unittest.TestCase):
    def setUp(self):
        folder = tempfile.TemporaryDirectory()
        self.addCleanup(folder.cleanup)
        self.path = Path(folder.name, "report.csv")

    def again(self, report):
        """The report, saved and read; and its first line."""
        report.save(self.path)
        read = Report.read(self.path)
        self.assertEqual((read.vertices[:], read.totals(), read.end, read.stable, read.gain, read.options),
                         (report.vertices[:], report.totals(), report.end, report.stable, report.gain, report.options))
        self.assertEqual(list(map(type, read.vertices.label)), list(map(type, report.vertices.label)))
        return self.path.read_text(errors="surrogateescape").split("\n")[0]

    def test_lines_are_the_programs(self):
        edges = PAGES / "examples" / "web.tsv"
        for words in ([], ["--estimate", "corrected", "--log2m", "5", "--limit", "2"]):
            with open(edges, "rb") as file:
                written = subprocess.run([find(), "run", *words], stdin=file, capture_output=True, check=True).stdout
            options = {"log2m": 5, "limit": 2} if words else {"log2m": 8, "estimate": "raw"}
            with warnings.catch_warnings():
                warnings.simplefilter("ignore")
                report = hyperball.run(edges, **options)
            head = self.again(report)
            self.assertTrue(head.startswith("#hyperball,labels=texts,log2m="), head)
            self.assertEqual(self.path.read_bytes().split(b"\n", 1)[1], written)

    def test_labels_come_back(self):
        for labels in ([1, -2, 2**70], ["a", "b, \"c\"", "\udcff", "ä", "#tag", "1"], [(0, 1), "x\u2028", 2.5, b"b"], [1, "1"],
                       ["\ud800", "a"], []):
            with self.subTest(labels):
                report = hyperball.run([(label,) for label in labels])
                self.assertEqual(report.vertices.label, labels)
                self.again(report)

    def test_labels_that_cannot_be_saved(self):
        report = hyperball.run([(Decimal("1.5"),)])
        with self.assertRaisesRegex(ValueError, r"Decimal\('1.5'\) cannot be saved"):
            report.save(self.path)
        self.assertFalse(self.path.exists())

    def test_reports_of_the_program(self):
        report = Report.read(PAGES / "examples" / "web.csv")
        self.assertIsNone(report.options)
        self.assertEqual(self.again(report), "#hyperball,labels=texts")
        self.assertEqual(self.path.read_bytes(), b"#hyperball,labels=texts\n" + (PAGES / "examples" / "web.csv").read_bytes())

    def test_what_is_no_first_line(self):
        for line in ("#", "#hyperball", "#other,labels=texts", "#hyperball,labels=words", "#hyperball,labels=texts,log2m=8", "#hyperball,labels",
                     "#hyperball,labels=texts,log2m=8,seed=0,estimate=raw,limit=9,counted=some"):
            with self.subTest(line), self.assertRaisesRegex(ValueError, "no report"):
                Report.of([line, *REPORT.splitlines()])
        with self.assertRaisesRegex(ValueError, "no report"):
            Report.of(["#hyperball,labels=numbers", *REPORT.splitlines()])


class Made(unittest.TestCase):
    def test_options(self):
        report = hyperball.run([("a", "b"), ("b", "c")], log2m=4, seed=7, estimate="raw", limit=9, counted=["a", "b", "a"])
        self.assertEqual(report.options, Options(4, 7, "raw", 9, 2, hyperball.__version__))
        self.assertEqual(hyperball.run([("a", "b")]).options, (10, 0, "corrected", 4096, None, hyperball.__version__))

    def test_version(self):
        with program(ECHO):
            self.assertEqual(hyperball.run([("a", "b")]).options.version, "9.8.7")
        with tempfile.TemporaryDirectory() as folder:
            silent = Path(folder, "program")
            silent.write_text("#!/bin/sh\necho 'superstep,0,0.000000'\n")
            silent.chmod(0o755)
            with mock.patch.dict(os.environ, HYPERBALL=str(silent)):
                self.assertIsNone(version())


class Limits(unittest.TestCase):
    def test_a_run_warns_once(self):
        with self.assertWarnsRegex(RuntimeWarning, "ended by its limit, superstep 3: .* are lower bounds") as caught:
            report = hyperball.run(CHAIN, limit=3)
        self.assertEqual(caught.filename, __file__)
        with warnings.catch_warnings():
            warnings.simplefilter("error")
            whole = hyperball.run(CHAIN)
            self.assertLess(report.mean_distance(), whole.mean_distance())
            self.assertLess(report.effective_diameter(), whole.effective_diameter())

    def test_a_report_that_is_read_warns_once(self):
        report = Report.of(REPORT.replace("stable", "limit").splitlines())
        with self.assertWarnsRegex(RuntimeWarning, "lower bounds") as caught:
            report.mean_distance()
        self.assertEqual(caught.filename, __file__)
        with warnings.catch_warnings():
            warnings.simplefilter("error")
            report.effective_diameter()
            report.spid()


if __name__ == "__main__":
    unittest.main()
