"""Labels come back as they went in, or are refused by name before the program is run."""
import unittest
from decimal import Decimal
from enum import Enum

import hyperball
from given import ECHO, program, started


def labels_of(edges, **options):
    return hyperball.run(edges, **options).vertices.label


class LabelsComeBack(unittest.TestCase):
    def test_whole_numbers(self):
        labels = labels_of([(7, 0), (0, -3), (2**70, 7)])
        self.assertEqual(labels, [7, 0, -3, 2**70])
        self.assertEqual(set(map(type, labels)), {int})

    def test_texts(self):
        texts = ["ä", "日本 語", 'with "quotes"', "a,b", '"', ",", " blanks ", "007", "7", "e\u0301", "😀", "'", "%", "\x00", "\u2028"]
        self.assertEqual(labels_of(list(zip(texts, texts[1:]))), texts)

    def test_texts_that_a_list_would_take_for_something_else(self):
        texts = ["#tag", "%%", "\ufeffmark", "#", "\udcff0", "\udc80", "plain"]
        self.assertEqual(labels_of(list(zip(texts, texts[1:]))), texts)
        self.assertEqual(labels_of([("%%",), ("a", "%%")], counted=["%%"]), ["%%", "a"])

    def test_numbers_and_texts_that_look_alike(self):
        labels = labels_of([(1, "1"), ("1", 2), ("2", 1)])
        self.assertEqual(labels, [1, "1", 2, "2"])
        self.assertEqual(labels_of([("1", 1), (2, "1")]), ["1", 1, 2])

    def test_whatever_can_be_hashed(self):
        labels = [(0, 1), (1, 1), b"bytes", Decimal("1.5"), 0.5, frozenset({1})]
        self.assertEqual(labels_of(list(zip(labels, labels[1:]))), labels)

    def test_texts_of_other_types(self):
        class Colour(str, Enum):
            RED, BLUE = "red", "blue"

        self.assertEqual(labels_of([(Colour.RED, Colour.BLUE), ("red", "Colour.RED")]), ["red", "blue", "Colour.RED"])

    def test_equal_labels_are_one_vertex(self):
        self.assertEqual(labels_of([(1, 2.0), (2, True), (1.0, 3)]), [1, 2, 3])
        self.assertEqual(labels_of([(2, Decimal(2)), (2.0, 3), (Decimal("2.5"), 1.5)]), [2, 3, Decimal("2.5"), 1.5])

    def test_many_of_one_kind_and_then_one_of_another(self):
        edges = [(i, i + 1) for i in range(10000)] + [("end", 0), (("a", 1), "end")]
        self.assertEqual(labels_of(edges, limit=1), [*range(10001), "end", ("a", 1)])

    def test_counted(self):
        report = hyperball.run([(5, 6), ("x", 6), ((1, 2), 6)], counted=iter([5, (1, 2)]))
        self.assertEqual(round(report[6].reachable), 2)


class LabelsAreRefused(unittest.TestCase):
    def refused(self, edges, words, **options):
        with program(ECHO) as folder:
            with self.assertRaisesRegex(ValueError, words):
                hyperball.run(edges, **options)
            self.assertFalse(started(folder))

    def test_texts(self):
        self.refused([("a", "b"), ("a\tb", "c")], r"'a\\tb' has a tab in it")
        self.refused([("a", "b\n")], r"'b\\n' has a line's end in it")
        self.refused([("a\r", "b")], r"'a\\r' has a carriage return in it")
        self.refused([("a", "")], "empty text")
        self.refused([(1, 2), (1, "x\ty")], r"'x\\ty' has a tab")

    def test_missing_labels(self):
        self.refused([(1, None)], "a label is missing: None")
        self.refused([(1, float("nan"))], "a label is missing: nan")

    def test_what_cannot_be_hashed(self):
        self.refused([(1, [2])], r"\[2\] cannot be hashed")

    def test_later_edges_end_the_program(self):
        edges = [("a", "b")] * 20000 + [("c\td", "e")]
        with program("given.read(); open(here + '/whole', 'w').close(); time.sleep(60)") as folder:
            with self.assertRaisesRegex(ValueError, r"'c\\td' has a tab"):
                hyperball.run(edges)
            self.assertFalse((folder / "whole").exists())

    def test_counted(self):
        with program(ECHO):
            with self.assertRaisesRegex(ValueError, "not the text 'ab'"):
                hyperball.run([("a", "b")], counted="ab")
            with self.assertRaisesRegex(ValueError, r"'a\\tb' has a tab"):
                hyperball.run([("a", "b")], counted=["a\tb"])


if __name__ == "__main__":
    unittest.main()
