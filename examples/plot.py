#!/usr/bin/env python3
"""Draws a report: the neighbourhood function with its effective diameter, and harmonic centrality by rank.

Usage: plot.py REPORT.csv OUT.png

It wants matplotlib (on Debian: apt-get install python3-matplotlib), and the package of this project: that of ../python, or
one that is installed. From Python, report.plot() is the same picture.
"""
import os
import sys

sys.path.insert(0, os.path.join(os.path.dirname(os.path.abspath(__file__)), "..", "python"))
from hyperball import Report  # noqa: E402 (the package of this tree comes first)


def main(words):
    if len(words) != 2:
        sys.exit(__doc__.strip())
    path, out = words
    try:
        Report.read(path).plot().savefig(out, dpi=100)
    except OSError as error:
        sys.exit(f"plot.py: {error.filename}: {error.strerror}")
    except ImportError:
        sys.exit("plot.py: matplotlib is not there; on Debian: apt-get install python3-matplotlib")
    except ValueError as error:
        sys.exit(f"plot.py: {error}")


if __name__ == "__main__":
    main(sys.argv[1:])
