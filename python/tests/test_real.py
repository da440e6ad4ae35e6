"""The real graphs that bench/real.py makes, of small folders and lists."""
import subprocess
import sys
import tempfile
import unittest
from pathlib import Path
from unittest import mock

from given import PAGES

sys.path.insert(0, str(PAGES / "bench"))
import accuracy  # noqa: E402
import real  # noqa: E402

AVAILABLE = b"""Package: a
Pre-Depends: b (>= 1)
Depends: c | d:any, b
Description: Depends on
 Package: none

Package: b
Version: 1
"""


class Real(unittest.TestCase):
    def records(self, kind, **files):
        with tempfile.TemporaryDirectory() as folder:
            for name, text in files.items():
                path = Path(folder, *name.split("__in__")).with_suffix({"headers": ".h", "modules": ".py", "links": ".html"}[kind])
                path.parent.mkdir(parents=True, exist_ok=True)
                path.write_text(text)
            return real.records(kind, folder)

    def test_packages(self):
        with mock.patch("subprocess.run", lambda *words, **options: subprocess.CompletedProcess(words, 0, AVAILABLE)):
            self.assertEqual(real.records("packages"), [("a",), ("a", "b"), ("a", "c"), ("a", "d"), ("b",)])

    def test_headers(self):
        found = self.records("headers", a='#include <sub/b.h>\n # include "none.h"\n', sub__in__b='#include "c.h"\n#include <a.h>\n', sub__in__c="")
        self.assertEqual(found, [("a.h",), ("a.h", "sub/b.h"), ("a.h", "none.h"), ("sub/b.h",), ("sub/b.h", "sub/c.h"), ("sub/b.h", "a.h"), ("sub/c.h",)])

    def test_modules(self):
        found = self.records("modules", a="import b, os.path as path\nfrom p import (c,\n  f)\n", p__in____init__="from . import c\nfrom .c import f\n",
                             p__in__c="from .. import x\nfrom . import f\n    import a\n")
        self.assertEqual(found, [("a",), ("a", "b"), ("a", "os.path"), ("a", "p.c"), ("p",), ("p", "p.c"), ("p.c",), ("p.c", "p"), ("p.c", "a")])

    def test_links(self):
        found = self.records("links", a='<a class="x" href="sub/b%2ehtml?x#y">b</a> <A HREF=\'http://elsewhere/\'></a>', sub__in__b='<a href="../a.html"></a><a href="none.html"></a>')
        self.assertEqual(found, [("a.html",), ("a.html", "sub/b.html"), ("sub/b.html",), ("sub/b.html", "a.html")])

    def test_exact_figures(self):
        """a to b to c, and a vertex alone, by searches from two vertices at once."""
        with mock.patch("accuracy.SEARCHES", 2):
            totals, figures = accuracy.exact([("a", "b"), ("b", "c"), ("d",), ("c", "c")])
        self.assertEqual(totals, [4, 6, 7])
        self.assertEqual(figures, {"a": (1, 0, 0, 1), "b": (2, 1, 1, 4), "c": (3, 1.5, 1 / 3, 3), "d": (1, 0, 0, 1)})


if __name__ == "__main__":
    unittest.main()
