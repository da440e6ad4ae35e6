"""What edges may be. Tests of libraries that are not there are skipped, and say so."""
import gzip
import io
import tempfile
import unittest
from pathlib import Path

import hyperball
from given import ECHO, PAGES, program

try:
    import networkx
except ImportError:
    networkx = None
try:
    import numpy
except ImportError:
    numpy = None
try:
    import pandas
except ImportError:
    pandas = None
try:
    import igraph
except ImportError:
    igraph = None


def given(edges, **options):
    """The bytes that the program is given."""
    with program(ECHO) as folder:
        hyperball.run(edges, **options)
        return (folder / "given").read_bytes()


def words(**options):
    with program(ECHO) as folder:
        hyperball.run([("a", "b")], **options)
        return (folder / "words").read_text().split("\n")


class Pairs(unittest.TestCase):
    def test_lists_iterators_and_pairs_of_any_kind(self):
        for edges in ([("a", "b"), ("b", "c")], iter([["a", "b"], ["b", "c"]]), {"a": "b", "b": "c"}.items(), (x for x in (("a", "b"), ("b", "c")))):
            self.assertEqual(given(edges), b"a\tb\nb\tc\n")

    def test_a_vertex_alone(self):
        self.assertEqual(given([("a", "b"), ("c",)]), b"a\tb\nc\n")

    def test_both_ways(self):
        self.assertEqual(given([("a", "b"), ("c",)], undirected=True), b"a\tb\nb\ta\nc\n")

    def test_no_edges(self):
        self.assertEqual(given([]), b"")

    def test_an_error_of_a_pipe_that_edges_come_from(self):
        def edges():
            yield from [("a", "b")] * 20000
            raise BrokenPipeError("mine")

        with self.assertRaisesRegex(BrokenPipeError, "mine"):
            hyperball.run(edges())

    def test_what_is_no_pair(self):
        for edges, text in (([("a", "b", 1)], r"edge 1 is no pair: \('a', 'b', 1\)"), ([("a", "b"), "ab"], "edge 2 is no pair but the text 'ab'"),
                            ([5], "edge 1 is no pair: 5"), ([{"from": 1, "to": 2}], "edge 1 is no pair: {"), ([()], r"edge 1 is no pair: \(\)")):
            with self.subTest(text), self.assertRaisesRegex(ValueError, text):
                given(edges)
        with self.assertRaisesRegex(TypeError, "not int"):
            given(5)

    def test_counted(self):
        self.assertEqual(given([("a", "b")], counted=["b", "a"]), b"a\tb\n%%\nb\na\n")
        self.assertEqual(given([(1, 2)], counted=range(1, 3)), b"1\t2\n%%\n1\n2\n")

    def test_no_list_is_made(self):
        seen = []

        def edges():
            for i in range(50000):
                seen.append(i)
                yield i, i + 1

        with program("sys.stderr.write('hyperball: too soon\\n'); sys.exit(1)"):
            with self.assertRaisesRegex(hyperball.Fault, "too soon"):
                hyperball.run(edges())
        self.assertLess(len(seen), 30000)  # (8,192 at once; a pipe holds fewer of these)


class Words(unittest.TestCase):
    def test_usual(self):
        self.assertEqual(words(), ["run", "--log2m", "10", "--keep", "0", "--estimate", "corrected"])

    def test_all(self):
        self.assertEqual(words(log2m=4, estimate="raw", seed=7, threads=3, counted=["a"], large=True, progress=lambda line: None,
                               parts=2, limit=9, keep=1, replicas=2),
                         ["run", "--log2m", "4", "--seed", "7", "--threads", "3", "--parts", "2", "--limit", "9", "--keep", "1",
                          "--replicas", "2", "--estimate", "raw", "--counted", "--large", "--progress"])


class Files(unittest.TestCase):
    LIST = b"# a comment\na\tb\nb\tc\r\nd\n\nc\t\xff"

    def setUp(self):
        folder = tempfile.TemporaryDirectory()
        self.addCleanup(folder.cleanup)
        self.path = Path(folder.name, "edges.tsv")
        self.path.write_bytes(self.LIST)
        self.zipped = Path(folder.name, "edges.tsv.gz")
        with gzip.open(self.zipped, "wb") as file:
            file.write(self.LIST)

    def test_paths(self):
        unnamed = self.zipped.rename(self.path.parent / "zipped")
        for path in (self.path, str(self.path), unnamed, str(unnamed)):
            self.assertEqual(given(path), self.LIST)

    def test_open_files(self):
        with open(self.path, "rb") as file:
            self.assertEqual(given(file), self.LIST)
        with open(self.path, errors="surrogateescape", newline="") as file:
            self.assertEqual(given(file), self.LIST)
        self.assertEqual(given(io.StringIO("a\tb\n")), b"a\tb\n")

    def test_both_ways(self):
        self.assertEqual(given(self.path, undirected=True), b"# a comment\na\tb\nb\ta\nb\tc\nc\tb\nd\n\nc\t\xff\n\xff\tc\n")
        self.assertEqual(given(io.BytesIO(b"\xef\xbb\xbfa\tb\n"), undirected=True), b"a\tb\nb\ta\n")
        lines = b"".join(b"%d\t%d\n" % (i, i + 1) for i in range(200000))
        swapped = b"".join(b"%d\t%d\n" % (i + 1, i) for i in range(200000))
        self.assertEqual(sorted(given(io.BytesIO(lines), undirected=True).split()), sorted((lines + swapped).split()))
        report = hyperball.run(io.BytesIO(b"x\ty\nz\tx\ny\tw\n"), undirected=True)
        self.assertEqual(report.vertices.label, ["x", "y", "z", "w"])
        self.assertEqual([round(reachable) for reachable in report.vertices.reachable], [4, 4, 4, 4])
        self.assertEqual(given(io.BytesIO(b"a\tb\nc\td\n"), undirected=True), b"a\tb\nc\td\nb\ta\nd\tc\n")
        self.assertEqual(given(io.BytesIO(b"a\tb\nc\n\nd"), undirected=True), b"a\tb\nb\ta\nc\n\nd\n")
        for list_ in (b"a\tb\n\tc\n", b"a\tb\nc\t\n", b"a\tb\tc\nd\n"):
            with self.subTest(list_), self.assertRaisesRegex(ValueError, "has not one or two fields"):
                given(io.BytesIO(list_), undirected=True)
        with self.assertRaisesRegex(ValueError, "is a comment the other way round"):
            given(io.BytesIO(b"a\t#b\n"), undirected=True)
        with self.assertRaisesRegex(ValueError, "has not one or two fields"):
            given(io.BytesIO(b"a\tb\tc\n"), undirected=True)

    def test_counted(self):
        self.assertEqual(given(self.path, counted=["a", "\udcff"]), self.LIST + b"\n%%\na\n\xff\n")
        self.assertEqual(given(io.BytesIO(b"1\t2\n"), counted=[2]), b"1\t2\n%%\n2\n")
        with self.assertRaisesRegex(ValueError, "'#a' cannot stand"):
            given(self.path, counted=["#a"])

    def test_delimiters(self):
        with program(ECHO) as folder:
            hyperball.run(io.BytesIO(b"a b\n"), delimiter="space", undirected=True)
            self.assertEqual((folder / "given").read_bytes(), b"a b\nb a\n")
            self.assertEqual((folder / "words").read_text().split("\n")[-2:], ["--delimiter", "space"])
        with self.assertRaisesRegex(ValueError, "tab, comma or space"):
            hyperball.run(self.path, delimiter=";")
        with self.assertRaisesRegex(ValueError, "for paths and open files"):
            hyperball.run([("a", "b")], delimiter="comma")
        for delimiter, name in ((",", "comma"), (" ", "space"), ("comma", "comma")):
            with program(ECHO) as folder:
                hyperball.run(io.BytesIO(b"a b\n"), delimiter=delimiter)
                self.assertEqual((folder / "words").read_text().split("\n")[-2:], ["--delimiter", name])
        with program(ECHO) as folder:
            hyperball.run(io.BytesIO(b"a\tb\n"), delimiter="\t")
            self.assertNotIn("--delimiter", (folder / "words").read_text())

    def test_no_file(self):
        with program(ECHO) as folder:
            with self.assertRaises(FileNotFoundError):
                hyperball.run(self.path.parent / "none.tsv")
            self.assertFalse((folder / "started").exists())

    def test_labels_of_files_are_texts(self):
        report = hyperball.run(self.path)
        self.assertEqual(report.vertices.label, ["a", "b", "c", "d", "\udcff"])
        self.assertEqual(hyperball.run(PAGES / "examples" / "two-edges.tsv").vertices.label, ["a", "b", "c"])


@unittest.skipUnless(networkx, "networkx is not there")
class Networkx(unittest.TestCase):
    def test_directed(self):
        graph = networkx.DiGraph([("a", "b"), ("b", "c")])
        graph.add_node("alone")
        self.assertEqual(given(graph), b"a\nb\nc\nalone\na\tb\nb\tc\n")

    def test_undirected_and_with_more_edges(self):
        self.assertEqual(given(networkx.path_graph(3)), b"0\n1\n2\n0\t1\n1\t0\n1\t2\n2\t1\n")
        self.assertEqual(given(networkx.MultiDiGraph([(0, 1), (0, 1)])), b"0\n1\n0\t1\n")
        self.assertEqual(given(networkx.DiGraph([(0, 1)]), undirected=True), b"0\n1\n0\t1\n1\t0\n")
        self.assertEqual(given(networkx.DiGraph([("a", "b"), ("a", "c")]), undirected=True), b"a\nb\nc\na\tb\na\tc\nb\ta\nc\ta\n")
        self.assertEqual(given(networkx.Graph()), b"")

    def test_nodes_that_are_equal_and_of_another_type(self):
        graph = networkx.DiGraph([(1, 2)])
        graph.add_edges_from([(2, 1.0), (True, 3)])
        self.assertEqual(given(graph), b"1\n2\n3\n1\t2\n1\t3\n2\t1\n")

    def test_nodes_of_any_kind(self):
        graph = networkx.grid_2d_graph(3, 3)
        report = hyperball.run(graph)
        self.assertEqual(report.vertices.label, list(graph))
        self.assertEqual(report.top("harmonic", 1)[0].label, (1, 1))

    def test_near_its_own_figures(self):
        graph = networkx.gnp_random_graph(60, 0.05, seed=3, directed=True)
        report = hyperball.run(graph)
        exact = networkx.harmonic_centrality(graph)
        for vertex in report.vertices:
            self.assertAlmostEqual(vertex.harmonic, exact[vertex.label], delta=4)  # (how near stands in test_figures)


@unittest.skipUnless(numpy, "numpy is not there")
class Numpy(unittest.TestCase):
    def test_array(self):
        self.assertEqual(given(numpy.array([[1, 2], [2, 3]])), b"1\t2\n2\t3\n")
        self.assertEqual(hyperball.run(numpy.array([[1, 2], [2, 3]], dtype=numpy.int8)).vertices.label, [1, 2, 3])
        self.assertEqual(hyperball.run([(numpy.int64(1), 2)]).vertices.label, [1, 2])
        self.assertEqual(hyperball.run(numpy.array([["a", "b"]])).vertices.label, ["a", "b"])

    def test_missing_labels(self):
        with self.assertRaisesRegex(ValueError, "missing"):
            given([(numpy.float32("nan"), 1)])

    def test_other_shapes(self):
        with self.assertRaisesRegex(ValueError, r"the shape \(2, 3\)"):
            given(numpy.array([[1, 2, 3], [2, 3, 4]]))


@unittest.skipUnless(pandas, "pandas is not there")
class Pandas(unittest.TestCase):
    def test_frame(self):
        frame = pandas.DataFrame({"from": ["a", "b"], "to": ["b", "c"], "weight": [1, 2]})
        self.assertEqual(given(frame[["from", "to"]]), b"a\tb\nb\tc\n")
        self.assertEqual(given(pandas.DataFrame({"from": [1], "to": [2]})), b"1\t2\n")
        with self.assertRaisesRegex(ValueError, "two columns, not 3"):
            given(frame)

    def test_missing_labels(self):
        with self.assertRaisesRegex(ValueError, "missing"):
            given(pandas.DataFrame({"from": [1, 2], "to": [2, None]}))
        with self.assertRaisesRegex(ValueError, "missing"):
            given(pandas.DataFrame({"from": ["a"], "to": [None]}))
        for kind, values in (("Int64", [1, None]), ("string", ["a", None]), ("datetime64[ns]", ["2020-01-01", None])):
            with self.subTest(kind), self.assertRaisesRegex(ValueError, "missing"):
                given(pandas.DataFrame({"from": pandas.Series(values, dtype=kind), "to": pandas.Series(values[:1] * 2, dtype=kind)}))

    def test_to_pandas(self):
        report = hyperball.run([("a", "b"), ("b", "c")])
        frame = report.to_pandas()
        self.assertEqual(list(frame.columns), ["label", "reachable", "harmonic", "closeness", "lin", "distances", "empty"])
        self.assertEqual(list(frame["harmonic"]), list(report.vertices.harmonic))
        self.assertEqual(list(frame["empty"]), list(report.vertices.empty))
        repeated = hyperball.repeat([("a", "b"), ("b", "c")], seeds=(1, 2, 3))
        frame = repeated.to_pandas()
        self.assertAlmostEqual(frame["harmonic"][2], repeated.vertices[2].harmonic.mean)
        self.assertAlmostEqual(frame["harmonic_error"][2], repeated.vertices[2].harmonic.error)


@unittest.skipUnless(igraph, "igraph is not there")
class Igraph(unittest.TestCase):
    def test_numbers(self):
        self.assertEqual(given(igraph.Graph(4, [(0, 1), (1, 2)], directed=True)), b"0\n1\n2\n3\n0\t1\n1\t2\n")
        self.assertEqual(given(igraph.Graph(2, [(0, 1)])), b"0\n1\n0\t1\n1\t0\n")
        self.assertEqual(given(igraph.Graph(2, [(0, 1)], directed=True), undirected=True), b"0\n1\n0\t1\n1\t0\n")
        self.assertEqual(given(igraph.Graph()), b"")
        report = hyperball.run(igraph.Graph(3, [(0, 1)], directed=True), counted=[0])
        self.assertEqual((report.vertices.label, [round(reachable) for reachable in report.vertices.reachable]), ([0, 1, 2], [1, 1, 0]))

    def test_names(self):
        graph = igraph.Graph(2, [(0, 1)], directed=True)
        graph.vs["name"] = ["a", "b"]
        self.assertEqual(hyperball.run(graph).vertices.label, ["a", "b"])
        self.assertEqual(round(hyperball.run(graph, counted=["b"])["b"].reachable), 1)
        with self.assertRaisesRegex(hyperball.Fault, "record 2 of the list names no vertex: '0' is to be counted"):
            hyperball.run(graph, counted=["b", "0"])
        graph.vs["name"] = ["ä", (1, "b")]
        self.assertEqual(given(graph, undirected=True, counted=[(1, "b")]), b"0\n1\n0\t1\n1\t0\n%%\n1\n")
        self.assertEqual(hyperball.run(graph).vertices.label, ["ä", (1, "b")])
        graph.vs["name"] = [7, 3]
        self.assertEqual([round(hyperball.run(graph)[label].reachable) for label in (7, 3)], [1, 2])
        graph.vs["name"] = ["a", None]
        with self.assertRaisesRegex(ValueError, "a label is missing: None"):
            given(graph)
        graph.vs["name"] = ["a", "a"]
        with self.assertRaisesRegex(ValueError, "have one name"):
            given(graph)


if __name__ == "__main__":
    there = {"networkx": networkx, "numpy": numpy, "pandas": pandas, "igraph": igraph}
    print("with", ", ".join(f"{name} {library.__version__}" for name, library in there.items() if library) or "no library")
    unittest.main()
