"""python3 -m hyperball, as a user types it."""
import csv
import gzip
import os
import subprocess
import sys
import tempfile
import unittest
from pathlib import Path

import hyperball
from given import PAGES

try:
    import matplotlib
except ImportError:
    matplotlib = None

CLUB, WEB = PAGES / "examples" / "club.tsv", PAGES / "examples" / "web.tsv"


class Command(unittest.TestCase):
    def setUp(self):
        folder = tempfile.TemporaryDirectory()
        self.addCleanup(folder.cleanup)
        self.folder = Path(folder.name)

    def said(self, *words, given=b"", status=0, **environment):
        """Standard output and standard error."""
        environment = {**os.environ, "PYTHONPATH": str(PAGES / "python"), "PYTHONIOENCODING": "utf-8", **environment}
        done = subprocess.run([sys.executable, "-m", "hyperball", *map(str, words)], input=given, capture_output=True, env=environment, cwd=self.folder)
        self.assertEqual(done.returncode, status, done.stderr)
        return done.stdout.decode(), done.stderr.decode()

    def table(self, text):
        """The rows of a table, after its summary and the line of its heads."""
        return [line.split() for line in text.split("\n")[3:-1]]

    def mistake(self, *words, given=b""):
        out, err = self.said(*words, given=given, status=2)
        self.assertEqual(out, "")
        self.assertRegex(err, r"^hyperball: [^\n]*\n$")
        return err[len("hyperball: "):-1]

    def test_table(self):
        out, err = self.said(WEB)
        self.assertEqual(err, f"hyperball: the delimiter of {WEB} is taken to be a tab\n")
        report = hyperball.run(WEB)
        self.assertEqual(out.split("\n")[0], f"323 vertices, mean distance {report.mean_distance():.2f}, effective diameter {report.effective_diameter():.2f}")
        rows = self.table(out)
        self.assertEqual([row[0] for row in rows], [vertex.label for vertex in report.top("harmonic", 20)])
        self.assertAlmostEqual(float(rows[0][1]), report.vertices.harmonic[0], places=3)
        self.assertEqual(len(self.table(self.said(WEB, "--top", 3)[0])), 3)

    def test_file(self):
        self.said(WEB, "-o", "vertices.csv")
        with open(self.folder / "vertices.csv", newline="") as file:
            rows = list(csv.reader(file))
        self.assertEqual(rows[0], ["label", "reachable", "harmonic", "closeness", "lin"])
        vertices = hyperball.run(WEB).vertices
        self.assertEqual([(row[0], *map(float, row[1:])) for row in rows[1:]], [vertex[:5] for vertex in vertices])

    def test_seeds(self):
        out, _ = self.said(CLUB, "--seeds", 3, "-o", "vertices.csv")
        repeated = hyperball.repeat(CLUB, seeds=3)
        with open(self.folder / "vertices.csv", newline="") as file:
            first = next(row for row in csv.DictReader(file) if row["label"] == "harbour")
        self.assertEqual(float(first["harmonic"]), repeated["harbour"].harmonic.mean)
        self.assertEqual(float(first["lin_error"]), repeated["harbour"].lin.error)
        self.assertEqual(self.table(out)[0][:4], ["harbour", *hyperball.views.number(repeated["harbour"].harmonic).split()])
        self.assertIn(" +- ", self.said(CLUB, "--seeds", 2, PYTHONIOENCODING="ascii")[0])

    def test_undirected(self):
        self.assertEqual([float(row[2]) for row in self.table(self.said("-", "--undirected", given=b"a b\n")[0])], [2.00098, 2.00098])

    def test_zipped_by_its_bytes(self):
        table = self.said(CLUB)[0]
        zipped, plain = self.folder / "club.txt", self.folder / "club.gz"
        zipped.write_bytes(gzip.compress(CLUB.read_bytes()))
        plain.write_bytes(CLUB.read_bytes())
        several = self.said(CLUB, "--seeds", 2)[0]
        for path in (zipped, plain):
            self.assertEqual(self.said(path)[0], table)
            self.assertEqual(self.said(path, "--seeds", 2)[0], several)
        for text in (CLUB.read_bytes(), zipped.read_bytes()):
            self.assertEqual(self.said("-", given=text)[0], table)
            self.assertEqual(self.said("-", "--seeds", 2, given=text)[0], several)
        zipped.write_bytes(zipped.read_bytes()[:100])
        self.mistake(zipped)

    def test_delimiters(self):
        for text, kind in ((b"New York\tSan Jose\n", "tab"), (b"# a b\n\nlone\na,b\n", "comma"), (b"a b\nc d\na,b c\n", "space"),
                           (b"a, b\n", "comma, and the blanks beside it part of labels")):
            self.assertEqual(self.said("-", given=text)[1], f"hyperball: the delimiter of standard input is taken to be a {kind}\n")
        self.assertEqual([row[0] for row in self.table(self.said("-", given=b"a,b\n")[0])], ["b", "a"])

    def test_labels_are_plain_on_a_terminal(self):
        out, _ = self.said("-", given=b"a\t\x1b[31mred\xff\n" + b"b\t" + b"x" * 90 + b"\n")
        self.assertEqual([row[0] for row in self.table(out)], [r"\x1b[31mred\udcff", "x" * 57 + "...", "a", "b"])

    def test_mistakes(self):
        for words, given, said in (
                ([], b"", "GRAPH"), (["none.tsv"], b"", "none.tsv: No such file"), (["."], b"", "Is a directory"),
                ([CLUB, "--top", "x"], b"", "invalid int"), ([CLUB, "--top", "-1"], b"", "not -1"), ([CLUB, "--seeds", "1"], b"", "2 seeds or more"),
                ([CLUB, "-o", "none/x.csv"], b"", "none/x.csv cannot be written"), ([CLUB, "-o", "."], b"", "cannot be written"),
                (["-"], b"a;b\n", "no line of standard input"), (["-"], b"", "no line of standard input"),
                (["-"], b"a\tb\n\na\tb\t1\n", "line 3 of standard input has 3 fields"), (["-"], b"%%MatrixMarket x\n1 2\n", "line 1 of standard input begins with %")):
            with self.subTest(said):
                self.assertIn(said, self.mistake(*words, given=given))
        out, err = self.said("-", given=b"a b\n" * 200 + b"a b c\n", status=2)
        self.assertEqual((out, err.count("\n")), ("", 2))
        self.assertIn("record 201", err)

    def test_help(self):
        self.assertIn("--seeds", self.said("--help")[0])

    def test_a_pipe_that_is_closed(self):
        words = f"{sys.executable} -m hyperball {WEB} --top 300 2>/dev/null | head -n 1"
        done = subprocess.run(["bash", "-c", f"set -o pipefail; {words}"], capture_output=True, env={**os.environ, "PYTHONPATH": str(PAGES / "python")})
        self.assertEqual(done.stderr, b"")
        self.assertIn(b"323 vertices", done.stdout)

    @unittest.skipUnless(matplotlib, "matplotlib is not there")
    def test_picture(self):
        self.said(CLUB, "--plot", "picture.png")
        self.assertEqual((self.folder / "picture.png").read_bytes()[:4], b"\x89PNG")
        self.assertIn("is no picture", self.mistake(CLUB, "--plot", "picture.doc"))

    @unittest.skipIf(matplotlib, "matplotlib is there")
    def test_no_picture(self):
        self.assertIn("python3-matplotlib", self.mistake(CLUB, "--plot", "picture.png"))


if __name__ == "__main__":
    unittest.main()
