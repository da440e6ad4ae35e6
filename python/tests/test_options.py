"""Options that are mistaken are told before the program is started; a report is asked in one way."""
import unittest
from fractions import Fraction

import hyperball
from given import ECHO, REPORT, program, started
from hyperball import Report
from test_sources import numpy, words


class Mistakes(unittest.TestCase):
    def told(self, error, text, edges=(("a", "b"),), **options):
        with self.subTest(options), program(ECHO) as folder:
            with self.assertRaises(error) as caught:
                hyperball.run(list(edges), **options)
            self.assertEqual(str(caught.exception), text)
            self.assertFalse(started(folder))

    def test_numbers(self):
        self.told(ValueError, "seed is from 0 to 18446744073709551615, not -1", seed=-1)
        self.told(ValueError, "seed is from 0 to 18446744073709551615, not 18446744073709551616", seed=2**64)
        self.told(ValueError, "log2m is from 4 to 10, not 11", log2m=11)
        self.told(ValueError, "log2m is from 4 to 10, not 3", log2m=3)
        self.told(ValueError, "log2m is a whole number, not 8.5", log2m=8.5)
        self.told(ValueError, "log2m is a whole number, not nan", log2m=float("nan"))
        self.told(ValueError, "limit is a whole number, not inf", limit=float("inf"))
        self.told(TypeError, "log2m is a whole number, not '8'", log2m="8")
        self.told(TypeError, "limit is a whole number, not None", limit=None)
        for name, most in (("threads", 1024), ("parts", 64), ("limit", 4096), ("keep", 4096), ("replicas", 4)):
            least = 0 if name in ("threads", "keep") else 1
            self.told(ValueError, f"{name} is from {least} to {most}, not {most + 1}", **{name: most + 1})
            self.told(ValueError, f"{name} is from {least} to {most}, not {least - 1}", **{name: least - 1})

    def test_words(self):
        self.told(ValueError, "the estimate is corrected or raw, not 'none'", estimate="none")
        self.told(ValueError, "the estimate is corrected or raw, not None", estimate=None)
        self.told(ValueError, "the delimiter is tab, comma or space, not ';'", delimiter=";")
        self.told(ValueError, "a delimiter is for paths and open files", delimiter=",")
        self.told(ValueError, "counted is a list of labels, not the text 'ab'", counted="ab")
        self.told(TypeError, "'int' object is not iterable", counted=5)

    def test_numbers_of_other_types(self):
        usual = ["run", "--log2m", "8", "--keep", "0", "--estimate", "corrected"]
        for eight in (8, 8.0, Fraction(8)):
            self.assertEqual(words(log2m=eight, seed=0.0, limit=4096.0), usual)
        self.assertEqual(words(log2m=8, seed=2**64 - 1)[3:5], ["--seed", str(2**64 - 1)])
        self.assertEqual(hyperball.run([("a", "b")], log2m=8.0).options.log2m, 8)

    @unittest.skipUnless(numpy, "numpy is not there")
    def test_numbers_of_numpy(self):
        self.assertEqual(words(log2m=numpy.int64(8), seed=numpy.uint64(2**63), limit=numpy.float32(7))[1:7],
                         ["--log2m", "8", "--seed", str(2**63), "--limit", "7"])


class Asked(unittest.TestCase):
    report = Report.of(REPORT.splitlines())

    def test_as_a_collection(self):
        self.assertEqual(len(self.report), 3)
        self.assertEqual(list(self.report), self.report.vertices[:])
        self.assertEqual([vertex.label for vertex in self.report], ["a", "b", "c"])
        self.assertIn("a", self.report)

    def test_top(self):
        for asked, labels in (((), "cba"), ((2,), "cb"), (("lin",), "bca"), (("lin", 1), "b"), ((1, "lin"), "b"), ((0,), ""), ((9,), "cba")):
            with self.subTest(asked):
                self.assertEqual("".join(vertex.label for vertex in self.report.top(*asked)), labels)
        self.assertEqual([vertex.label for vertex in self.report.top(count=1)], ["c"])
        for asked, error in ((("degree",), ValueError), ((-1,), ValueError), ((2.5,), TypeError), (("lin", "harmonic"), TypeError), ((None,), TypeError)):
            with self.subTest(asked), self.assertRaises(error):
                self.report.top(*asked)


if __name__ == "__main__":
    unittest.main()
