"""Every `>>>` of the pages and of the package runs as printed."""
import doctest
import importlib
import os
import pkgutil
import re
import unittest

import hyperball
from given import PAGES

try:
    import networkx
except ImportError:
    networkx = None


class Pages(unittest.TestCase):
    def page(self, name):
        """Runs what stands between the fences of a page, in the page's folder."""
        text = (PAGES / name).read_text(encoding="utf-8")
        shown = "\n".join(block for block in re.findall(r"^```python\n(.*?)^```$", text, re.M | re.S) if ">>>" in block)
        self.assertTrue(shown, f"{name} shows nothing")
        test = doctest.DocTestParser().get_doctest(shown, {}, name, name, 0)
        before = os.getcwd()
        os.chdir((PAGES / name).parent)
        try:
            said = []
            result = doctest.DocTestRunner().run(test, out=said.append)
        finally:
            os.chdir(before)
        self.assertEqual(result.failed, 0, "".join(said))

    @unittest.skipUnless(networkx, "networkx is not there")
    def test_examples(self):
        self.page("examples/README.md")

    @unittest.skipUnless(networkx, "networkx is not there")
    def test_first_page(self):
        self.page("README.md")

    def test_page_of_the_package(self):
        self.page("python/README.md")

    def test_length_of_the_pages(self):
        self.assertLessEqual(len((PAGES / "README.md").read_text(encoding="utf-8").split()), 1200)
        self.assertLess(len((PAGES / "python" / "README.md").read_text(encoding="utf-8").split()), 650)

    def test_modules(self):
        for module in (hyperball, *(importlib.import_module(f"hyperball.{found.name}") for found in pkgutil.iter_modules(hyperball.__path__))):
            with self.subTest(module.__name__):
                said = []
                for test in doctest.DocTestFinder().find(module):
                    doctest.DocTestRunner().run(test, out=said.append)
                self.assertEqual("".join(said), "")


if __name__ == "__main__":
    unittest.main()
