"""The package is installed with no network, in a fresh environment, and works there."""
import os
import re
import shutil
import subprocess
import sys
import tempfile
import unittest
import zipfile
from pathlib import Path

import hyperball
from given import PAGES

# A stand-in of the program that a release brings, which makes the report of any edge list.
PROGRAM = "#!/bin/sh\ncat >/dev/null\nprintf 'superstep,0,0.000000\\nsuperstep,1,0.000000\\nend,1,stable\\ngain,0.000000\\n'\n"


class Wheel(unittest.TestCase):
    def setUp(self):
        folder = tempfile.TemporaryDirectory()
        self.addCleanup(folder.cleanup)
        self.folder = Path(folder.name)
        self.tree = self.folder / "tree"
        shutil.copytree(PAGES / "python", self.tree / "python", ignore=shutil.ignore_patterns("__pycache__", "build"))

    def install(self):
        """Installs the package of the tree, and says how `python -c` runs there."""
        subprocess.run([sys.executable, "-m", "venv", self.folder / "there"], check=True)
        python = self.folder / "there" / "bin" / "python"
        subprocess.run([python, "-m", "pip", "install", "--quiet", "--no-index", "--disable-pip-version-check", self.tree / "python"],
                       check=True, cwd=self.folder)
        return lambda text: subprocess.run([python, "-c", text], check=True, cwd=self.folder, capture_output=True, text=True,
                                           env={"PATH": os.environ["PATH"]}).stdout.strip()

    def test_without_the_program(self):
        text = "import backend, sys; print(backend.build_wheel(sys.argv[1]))"
        made = subprocess.run([sys.executable, "-c", text, self.folder], check=True, cwd=self.tree / "python", capture_output=True, text=True)
        self.assertEqual(made.stdout.strip(), f"hyperball-{hyperball.__version__}-py3-none-any.whl")
        with zipfile.ZipFile(self.folder / made.stdout.strip()) as wheel:
            self.assertIsNone(wheel.testzip())
            self.assertLess({"hyperball/__init__.py", "hyperball/py.typed"}, set(wheel.namelist()))
            points = wheel.read(f"hyperball-{hyperball.__version__}.dist-info/entry_points.txt").decode()
            self.assertIn("[networkx.backends]\nhyperball = hyperball.dispatch\n", points)

    @unittest.skipUnless((sys.platform, os.uname().machine) == ("linux", "x86_64"), "the program is one for Linux on x86-64")
    def test_with_the_program(self):
        release = self.tree / "release" / "hyperball-x86_64-linux"
        release.parent.mkdir()
        release.write_text(PROGRAM)
        said = self.install()("import hyperball.program; print(hyperball.program.find()); print(hyperball.run([])); print(hyperball.__version__)")
        found, report, version = said.split("\n")
        self.assertEqual(version, hyperball.__version__)
        self.assertTrue(found.endswith("site-packages/hyperball/hyperball-x86_64-linux"), found)
        self.assertEqual(report, "<Report of 0 vertices, 1 supersteps, stable>")

    def test_one_version(self):
        text = (PAGES / "python" / "pyproject.toml").read_text()
        self.assertEqual(re.search('^version = "(.*)"$', text, re.M).group(1), hyperball.__version__)
        program = (PAGES / "crates" / "hyperball" / "src" / "cli.rt").read_text()
        self.assertEqual(re.search('VERSION: &str = "(.*)";', program).group(1), hyperball.__version__)


if __name__ == "__main__":
    unittest.main()
