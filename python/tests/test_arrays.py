"""Arrays, frames and matrices: their lines are those that Python would write one by one."""
import subprocess
import sys
import unittest

import hyperball
from given import PAGES
from test_sources import given, numpy, pandas

try:
    import scipy.sparse
except ImportError:
    scipy = None
try:
    import graph_tool
except ImportError:
    graph_tool = None

# Where the number of digits, or of words of four digits, changes; and the ends of types.
EDGES = [0, 1, 9, 10, 99, 100, 999, 1000, 9999, 10000, 10001, 99999, 100000, 12340000, 99999999, 100000000, 2**31 - 1, 2**32 - 1, 2**32,
         10**12 - 1, 10**12, 10**16 - 1, 10**16, 2**63 - 1]


def lines(pairs):
    return "".join(f"{a}\t{b}\n" for a, b in pairs).encode()


class Libraries(unittest.TestCase):
    def test_none_is_imported_where_it_is_not_given(self):
        text = "import hyperball, sys; hyperball.run([(1, 2), (2.0, 3)]); print([name for name in ('numpy', 'pandas', 'networkx') if name in sys.modules])"
        said = subprocess.run([sys.executable, "-c", text], cwd=PAGES / "python", check=True, capture_output=True, text=True).stdout
        self.assertEqual(said, "[]\n")


@unittest.skipUnless(numpy, "numpy is not there")
class Numbers(unittest.TestCase):
    def same(self, pairs, kind):
        self.assertEqual(given(numpy.array(pairs, dtype=kind)), lines(pairs))
        both_ways = [pair for a, b in pairs for pair in ((a, b), (b, a))]
        self.assertEqual(given(numpy.array(pairs, dtype=kind), undirected=True), lines(both_ways))

    def test_all_lengths(self):
        for most in EDGES:
            with self.subTest(most):
                there = [number for number in EDGES if number <= most]
                self.same(list(zip(there, reversed(there))), "int64")
                self.same(list(zip(there, there)), "uint64")
        self.same([(2**64 - 1, 0), (2**63, 10**19)], "uint64")

    def test_negative(self):
        below = [-number for number in EDGES]
        self.same(list(zip(EDGES, below)) + list(zip(below, EDGES)) + [(-2**63, 2**63 - 1)], "int64")

    def test_types(self):
        for kind in ("int8", "uint8", "int16", "uint16", "int32", "uint32", "int64", "uint64", ">i4", ">u8"):
            with self.subTest(kind):
                self.same([(0, 127), (100, 7)], kind)
        self.assertEqual(given(numpy.array([[True, False]])), b"1\t0\n")

    def test_more_rows_than_are_put_together_at_once(self):
        pairs = [(i * i, i) for i in range(40000)]
        self.same(pairs, "int64")
        self.assertEqual(given(numpy.array(pairs)[::-1][:, ::-1]), lines((i, i * i) for i in reversed(range(40000))))
        self.assertEqual(given(numpy.empty((0, 2), int)), b"")

    def test_floats(self):
        self.same([(0, 2**53), (-5, 2**62)], "float64")
        self.same([(0, 2047), (-5, 1)], "float16")
        self.assertEqual(given(numpy.array([[-0.0, 2.0**63]])), b"0\t9223372036854775808\n")
        self.assertEqual(given(numpy.array([[1.0, 0.5]])), b"1\t\xff0\n")
        labels = [0.5, 1, 2.25, 3]
        self.assertEqual(hyperball.run(numpy.array([[0.5, 1], [2.25, 3]])).vertices.label, labels)
        many = numpy.array([[1.0, 2.0]] * 40000 + [[2.0, 0.5]])
        self.assertEqual(given(many), b"1\t2\n" * 40000 + b"2\t\xff0\n")
        for missing in (float("nan"), float("inf")):
            report = [[1.0, missing]]
            if missing == missing:
                self.assertEqual(hyperball.run(numpy.array(report)).vertices.label, [1, missing])
            else:
                with self.assertRaisesRegex(ValueError, "a label is missing: nan"):
                    given(numpy.array(report))

    def test_arrays_that_are_more(self):
        self.assertEqual(given(numpy.matrix([[1, 2], [3, 4]])), b"1\t2\n3\t4\n")
        self.assertEqual(given(numpy.ma.masked_array([[1, 2]], mask=False)), b"1\t2\n")
        with self.assertRaisesRegex(ValueError, "a label is missing: None"):
            given(numpy.ma.masked_array([[1, 2]], mask=[[False, True]]))
        self.assertEqual(given(numpy.array([[1, "a"], [2, (3, 4)]], dtype=object)), b"1\t\xff0\n2\t\xff1\n")
        self.assertEqual(given(numpy.array([["a", "b"]]), undirected=True), b"a\tb\nb\ta\n")

    def test_counted(self):
        self.assertEqual(given(numpy.array([[1, 2]]), counted=[2]), b"1\t2\n%%\n2\n")
        self.assertEqual(given(numpy.array([[1, 2]]), counted=numpy.array([2, 1])), b"1\t2\n%%\n2\n1\n")


@unittest.skipUnless(pandas, "pandas is not there")
class Frames(unittest.TestCase):
    def test_columns_of_two_types(self):
        self.assertEqual(given(pandas.DataFrame({"from": numpy.array([1, 2], "uint8"), "to": [3.0, -4.0]})), b"1\t3\n2\t-4\n")
        self.assertEqual(given(pandas.DataFrame({"from": [1, 2], "to": ["a", "b"]})), b"1\t\xff0\n2\t\xff1\n")

    def test_undirected(self):
        frame = pandas.DataFrame({"from": [1, 30000], "to": [20, 4]})
        self.assertEqual(given(frame, undirected=True), b"1\t20\n20\t1\n30000\t4\n4\t30000\n")
        self.assertEqual(given(frame.astype(str), undirected=True), b"1\t20\n20\t1\n30000\t4\n4\t30000\n")

    def test_types_of_its_own(self):
        for kind in ("Int64", "UInt8", "Float64", "category", "object"):
            with self.subTest(kind):
                self.assertEqual(given(pandas.DataFrame({"from": [1, 2], "to": [2, 3]}).astype(kind)), b"1\t2\n2\t3\n")

    def test_rows_that_were_chosen(self):
        frame = pandas.DataFrame({"from": range(50000), "to": range(1, 50001)})
        self.assertEqual(given(frame[frame["from"] % 2 == 1]), lines((i, i + 1) for i in range(1, 50000, 2)))


@unittest.skipUnless(scipy, "scipy is not there")
class Matrices(unittest.TestCase):
    def test_rows_to_columns(self):
        dense = [[0, 2.5, 0, 0], [0, 0, -1, 0], [0, 0, 0, 0], [1, 0, 0, 0]]
        for form in ("csr", "csc", "coo", "lil", "dok"):
            with self.subTest(form):
                head, edges = b"0\n1\n2\n3\n", given(scipy.sparse.coo_matrix(dense).asformat(form))
                self.assertEqual((edges[:8], sorted(edges[8:].splitlines())), (head, [b"0\t1", b"1\t2", b"3\t0"]))

    def test_an_entry_of_0_is_no_edge(self):
        matrix = scipy.sparse.csr_matrix(([1, 0], ([0, 1], [1, 0])), shape=(2, 2))
        self.assertEqual(matrix.nnz, 2)
        self.assertEqual(given(matrix), b"0\n1\n0\t1\n")

    def test_undirected(self):
        self.assertEqual(given(scipy.sparse.csr_matrix([[0, 1], [0, 0]]), undirected=True), b"0\n1\n0\t1\n1\t0\n")

    def test_arrays_and_other_shapes(self):
        self.assertEqual(hyperball.run(scipy.sparse.csr_array([[0, True], [False, False]])).vertices.label, [0, 1])
        with self.assertRaisesRegex(ValueError, r"as many columns as rows, and this one the shape \(1, 2\)"):
            given(scipy.sparse.csr_matrix([[0, 1]]))


@unittest.skipUnless(graph_tool, "graph-tool is not there")
class GraphTool(unittest.TestCase):
    def test_edges(self):
        for directed, back in ((True, b""), (False, b"1\t0\n")):
            with self.subTest(directed=directed):
                graph = graph_tool.Graph(directed=directed)
                graph.add_vertex(3)
                graph.add_edge(0, 1)
                self.assertEqual(given(graph), b"0\n1\n2\n0\t1\n" + back)
                self.assertEqual(given(graph, undirected=True), b"0\n1\n2\n0\t1\n1\t0\n")

    def test_vertices_that_are_filtered(self):
        graph = graph_tool.Graph(directed=True)
        graph.add_vertex(4)
        graph.add_edge_list([(0, 1), (1, 3), (3, 2)])
        view = graph_tool.GraphView(graph, vfilt=lambda vertex: int(vertex) != 1)
        self.assertEqual(given(view), b"0\n2\n3\n3\t2\n")


if __name__ == "__main__":
    unittest.main()
