"""What the tests share: programs that are no hyperball, and exact figures."""
import contextlib
import os
import stat
import sys
import tempfile
from pathlib import Path
from unittest import mock

HERE = Path(__file__).resolve().parent
PAGES = HERE.parent.parent

REPORT = """superstep,0,3.000000
superstep,1,5.007842
superstep,2,6.015716
superstep,3,6.015716
end,3,stable
gain,1.255889
vertex,a,1.000000,0.000000,0.000000,1.000000,255
vertex,b,2.003921,1.003921,0.996094,4.000015,254
vertex,c,3.011795,1.507858,0.331162,3.003941,253
"""


@contextlib.contextmanager
def program(text):
    """A program of Python's is asked in place of hyperball; `words`, `given` and `report` are there. Gives its folder."""
    with tempfile.TemporaryDirectory() as folder:
        file = Path(folder, "program")
        file.write_text(f"#!{sys.executable}\nimport os, sys, time\nwords = sys.argv[1:]\ngiven = sys.stdin.buffer\n"
                        f"if words == ['--version']:\n    print('hyperball 9.8.7')\n    sys.exit()\n"
                        f"here = {folder!r}\nreport = {REPORT!r}\nopen(here + '/started', 'w').close()\n{text}\n")
        file.chmod(file.stat().st_mode | stat.S_IXUSR)
        with mock.patch.dict(os.environ, HYPERBALL=str(file)):
            yield Path(folder)


ECHO = """open(here + '/words', 'w').write('\\n'.join(words))
open(here + '/given', 'wb').write(given.read())
sys.stdout.write(report.split('vertex')[0])"""


def started(folder):
    """Whether the program was started."""
    return (folder / "started").exists()


def balls(records):
    """Of each label how many can reach it by at most 0, 1, .. edges, up to where nothing changes; by sets."""
    labels = list(dict.fromkeys(label for record in records for label in record))
    ball = {label: {label} for label in labels}
    sizes = {label: [1] for label in labels}
    while True:
        after = {label: set(ball[label]) for label in labels}
        for record in records:
            if len(record) == 2:
                after[record[1]] |= ball[record[0]]
        if after == ball:
            return sizes
        ball = after
        for label in labels:
            sizes[label].append(len(ball[label]))


def shared(vertices, seed, log2m=10):
    """How many of the vertices fall into a register that an earlier one is in: the hash of the definitions."""
    mask = (1 << 64) - 1
    registers = set()
    for vertex in range(vertices):
        z = (seed + (vertex + 1) * 0x9E3779B97F4A7C15) & mask
        z = ((z ^ z >> 30) * 0xBF58476D1CE4E5B9) & mask
        z = ((z ^ z >> 27) * 0x94D049BB133111EB) & mask
        registers.add((z ^ z >> 31) >> 64 - log2m)
    return vertices - len(registers)
