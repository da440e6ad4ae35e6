"""How the program is found, how it ends, and what it says on the way."""
import contextlib
import gzip
import io
import os
import pickle
import tempfile
import unittest
from itertools import count
from pathlib import Path
from unittest import mock

import hyperball
from given import ECHO, REPORT, program
from hyperball.program import find

EDGES = [("a", "b"), ("b", "c")]


def endless():
    return ((i, i + 1) for i in count())


class Ends(unittest.TestCase):
    def fault(self, edges=EDGES, **options):
        with self.assertRaises(hyperball.Fault) as caught:
            hyperball.run(edges, **options)
        return caught.exception

    def test_fault_of_the_program(self):
        fault = self.fault(counted=["b", "z"])
        self.assertEqual(fault.status, 1)
        self.assertEqual(str(fault), "record 2 of the list names no vertex: 'z' is to be counted, and is not in the graph")

    def test_too_many(self):
        for text in ("too many records", "too many vertices"):
            with program(f"given.read(); sys.stderr.write('hyperball: {text}\\n'); sys.exit(1)"):
                self.assertEqual(str(self.fault()), f"{text}: large=True takes more than 2^26 records or 2^24 vertices")
                self.assertEqual(str(self.fault(large=True)), text)

    def test_fault_after_progress(self):
        self.assertTrue(str(self.fault(counted=["z"], progress=lambda line: None)).startswith("record 1 of the list names no vertex"))

    def test_mistaken_words(self):
        with program("sys.stderr.write('error: no such word\\n\\nUsage: hyperball\\n'); sys.exit(2)"):
            fault = self.fault()
        self.assertEqual((str(fault), fault.status), ("error: no such word\n\nUsage: hyperball", 2))

    def test_fault_of_a_long_list(self):
        fault = self.fault(io.BytesIO(b"a\tb\t1\n" + b"a\tb\n" * 3000000))
        self.assertTrue(str(fault).startswith("record 1 has not one or two identifiers: line 1 is"))

    def test_a_pipe_that_is_closed(self):
        with program("sys.stderr.write('hyperball: refused\\n'); sys.exit(1)"):
            fault = self.fault(endless())
        self.assertEqual((str(fault), fault.status), ("refused", 1))
        with program("given.close(); time.sleep(0.2); sys.exit(3)"):
            self.assertEqual(self.fault(endless()).status, 3)

    def test_killed(self):
        for when in ("", "given.read(100);", "given.read(); sys.stdout.write(report[:200]); sys.stdout.flush();"):
            with self.subTest(when), program(when + "os.kill(os.getpid(), 9); time.sleep(9)"):
                fault = self.fault()
                self.assertEqual((str(fault), fault.status), ("the program was ended by signal 9", -9))

    def test_a_report_that_is_cut(self):
        with program("given.read(); sys.stdout.write(report[:200]); sys.stderr.write('hyperball: the output cannot be written\\n'); sys.exit(1)"):
            self.assertEqual(str(self.fault()), "the output cannot be written")
        with program("given.read(); sys.stdout.write(report[:200])"):
            with self.assertRaisesRegex(ValueError, "no report of hyperball run"):
                hyperball.run(EDGES)

    def test_status_with_a_whole_report(self):
        with program("given.read(); sys.stdout.write(report); sys.stdout.flush(); sys.exit(1)"):
            self.assertEqual(str(self.fault()), "the program ended with status 1")

    def test_faults_can_be_sent_on(self):
        fault = pickle.loads(pickle.dumps(hyperball.Fault("text", 1)))
        self.assertEqual((str(fault), fault.status), ("text", 1))

    def test_an_error_of_the_edges_ends_the_program(self):
        def edges():
            yield from [("a", "b")] * 20000
            raise KeyError("mine")

        with program("given.read(); open(here + '/whole', 'w').close(); time.sleep(60)") as folder:
            with self.assertRaisesRegex(KeyError, "mine"):
                hyperball.run(edges())
            self.assertFalse((folder / "whole").exists())

    def test_an_error_of_what_is_told_ends_the_program(self):
        def told(line):
            raise KeyError(line)

        with program("sys.stderr.write('hyperball: a line\\n'); sys.stderr.flush(); given.read(); time.sleep(60)"):
            with self.assertRaisesRegex(KeyError, "a line"):
                hyperball.run(EDGES, progress=told)


class SaysWhere(unittest.TestCase):
    LIST = b"\xef\xbb\xbf# a comment\r\n\na\tb\r\n#\tc\td\nb\tc\t0.5\r\nc\td\n"

    def setUp(self):
        folder = tempfile.TemporaryDirectory()
        self.addCleanup(folder.cleanup)
        self.path = Path(folder.name, "edges.tsv")

    def said(self, edges, error=hyperball.Fault, **options):
        with self.assertRaises(error) as caught:
            hyperball.run(edges, **options)
        return str(caught.exception)

    def test_a_line_of_a_file(self):
        self.path.write_bytes(self.LIST)
        mended = r"is 'b\tc\t0.5', 3 fields: cut the weight, as by cut -f 1,2"
        for path in (self.path, str(self.path)):
            self.assertEqual(self.said(path), f"record 2 has not one or two identifiers: line 5 of {self.path} {mended}")
        self.assertEqual(self.said(self.path, ValueError, undirected=True), f"a line has not one or two fields: line 5 {mended}")
        self.path.write_bytes(gzip.compress(self.LIST))
        self.assertEqual(self.said(self.path), f"record 2 has not one or two identifiers: line 5 of {self.path} {mended}")

    def test_a_line_of_an_open_file(self):
        mended = r"is 'b\tc\t0.5', 3 fields: cut the weight, as by cut -f 1,2"
        for file in (io.BytesIO(self.LIST), io.StringIO(self.LIST.decode("utf-8"), newline="")):
            self.assertEqual(self.said(file), f"record 2 has not one or two identifiers: line 5 {mended}")
        file = io.BytesIO(b"x\ty\tz\n" + self.LIST[3:])
        file.readline()  # what was read before is not counted
        self.assertEqual(self.said(file), f"record 2 has not one or two identifiers: line 5 {mended}")

    def test_a_file_that_cannot_go_back(self):
        class Pipe:
            def __init__(self, file):
                self.read = file.read

        self.assertEqual(self.said(Pipe(io.BytesIO(self.LIST))), "record 2 has not one or two identifiers")

    def test_what_would_mend_it(self):
        for line, delimiter, mended in ((b"a,b,1", ",", "3 fields: cut the weight, as by cut -d , -f 1,2"),
                                        (b'"a, b",c', "comma", "3 fields: quotes keep no comma in a field, so put tabs between the labels"),
                                        (b"a b 1 2", " ", "4 fields: cut the weight, as by cut -d ' ' -f 1,2"),
                                        (b"a  b", " ", "and a label is missing: take spaces away that are too many, as by tr -s ' '"),
                                        (b"a\t", "\t", "and a label is missing: a line has one label, or two with one delimiter between")):
            with self.subTest(line):
                text = f"line 1 is {line.decode()!r}, {mended}"
                self.assertEqual(self.said(io.BytesIO(line), delimiter=delimiter), f"record 1 has not one or two identifiers: {text}")
                self.assertEqual(self.said(io.BytesIO(line), ValueError, delimiter=delimiter, undirected=True), f"a line has not one or two fields: {text}")

    def test_a_long_line(self):
        said = self.said(io.BytesIO(b"a\tb\t" + b"c" * 1000))
        self.assertIn("ccc'.., 3 fields", said)
        self.assertLess(len(said), 250)

    def test_a_line_far_down(self):
        lines = b"aa\tbb\n" * 400000
        self.assertIn(" line 400001 is 'x\\ty\\tz'", self.said(io.BytesIO(lines + b"x\ty\tz\n" + lines)))
        self.assertIn(" line 400001 is 'x\\ty\\tz'", self.said(io.BytesIO(lines + b"x\ty\tz\n" + lines), ValueError, undirected=True))


class Tells(unittest.TestCase):
    LINES = ["2 records and 3 vertices are read", "the supersteps begin", "superstep 1, 2 of 3 vertices changed",
             "superstep 2, 1 of 3 vertices changed", "superstep 3, 0 of 3 vertices changed", "the report is written"]

    def test_lines(self):
        lines = []
        hyperball.run(EDGES, progress=lines.append)
        self.assertEqual(lines, self.LINES)

    def test_standard_error(self):
        with contextlib.redirect_stderr(io.StringIO()) as told:
            hyperball.run(EDGES, progress=True)
        self.assertEqual(told.getvalue(), "".join(f"hyperball: {line}\n" for line in self.LINES))

    def test_nothing(self):
        with contextlib.redirect_stderr(io.StringIO()) as told:
            hyperball.run(EDGES)
        self.assertEqual(told.getvalue(), "")

    def test_more_than_a_pipe_holds(self):
        lines = []
        with program("for i in range(20000): sys.stderr.write(f'hyperball: line {i}\\n')\ngiven.read()\nsys.stdout.write(report)"):
            hyperball.run(EDGES, progress=lines.append)
        self.assertEqual(len(lines), 20000)


class IsFound(unittest.TestCase):
    def test_named(self):
        with program(ECHO) as folder:
            self.assertEqual(find(), str(folder / "program"))
        with mock.patch.dict(os.environ, HYPERBALL="/none"), self.assertRaisesRegex(FileNotFoundError, "HYPERBALL is '/none'"):
            find()

    def placed(self, *files):
        """A package in a folder of its own, with these files beside it: what is found, by its place in the folder."""
        folder = tempfile.TemporaryDirectory()
        self.addCleanup(folder.cleanup)
        for name in ("python/hyperball/program.py", *files):
            file = Path(folder.name, name)
            file.parent.mkdir(parents=True, exist_ok=True)
            file.touch()
            file.chmod(0o755)
        environment = {"PATH": str(Path(folder.name, "bin"))}
        with mock.patch.dict(os.environ, environment, clear=True), \
                mock.patch("hyperball.program.__file__", str(Path(folder.name, "python/hyperball/program.py"))), \
                mock.patch("hyperball.program.sys.platform", "linux"), \
                mock.patch("hyperball.program.platform.machine", lambda: "x86_64"):
            return str(Path(find()).relative_to(Path(folder.name).resolve()))

    def test_beside(self):
        brought = "python/hyperball/hyperball-x86_64-linux"
        self.assertEqual(self.placed("hyperball", "crates.txt", brought, "bin/hyperball"), "hyperball")
        self.assertEqual(self.placed("hyperball", brought, "bin/hyperball"), brought)
        self.assertEqual(self.placed("hyperball", "bin/hyperball"), "bin/hyperball")
        with self.assertRaisesRegex(FileNotFoundError, "the program is not there"):
            self.placed("hyperball")


if __name__ == "__main__":
    unittest.main()
