#!/usr/bin/env python3
"""Runs the program on large graphs: what is refused without --large is answered with it, and two large graphs run to
their end.

Usage: bench/large.py [--log2m 8] [--beside PROGRAM] [limits|livejournal|orkut ..]     (all, if none is named)

limits:      2^24 + 1 vertices and 2^26 + 1 records: each is refused without --large, with its fault and status 1, and
             has a report with it (log2m 4).
livejournal: a graph of the size of soc-LiveJournal1: 4,847,571 vertices, 68,993,773 records.
orkut:       one of the size of com-Orkut: 3,072,441 vertices, 117,185,083 edges, both ways.

The two graphs are made by bench/generate.py (power laws; the labels of sources come in order), and run with --keep 0 in
one partition. The table has seconds by the clock, of the whole run also those of all processors, and peaks: reading
ends where --progress tells what was read, the supersteps go from their begin to the line of the last one. PROGRAM is
another one that takes --log2m, --large and --threads and writes the same bytes: it is run on the same lists, with four
threads, and the reports are compared. HYPERBALL names another build of this one. Lists and reports stand in a folder
for temporary files (TMPDIR; up to 4.5 GB) and are taken away. The status is 1 where anything is not as it should be.
"""
import argparse
import os
import subprocess
import sys
import tempfile
import time

from launched import environment, program
from watched import digest_of, end_in_order, watched

HERE = os.path.dirname(os.path.abspath(__file__))
PROGRAM = os.environ.get("HYPERBALL") or program()
USUAL_VERTICES, USUAL_RECORDS = 2**24, 2**26
GRAPHS = {"livejournal": ("follows", 4_847_571, 68_993_773), "orkut": ("friends", 3_072_441, 2 * 117_185_083)}
COLUMNS = ["graph", "program", "vertices", "records", "supersteps", "reading, s", "supersteps, s", "whole run, s", "processor, s", "peak while reading, MiB", "peak, MiB", "report"]


def run(words, path, report):
    """This program on a list, with its progress."""
    return watched([PROGRAM, "run", "--keep", "0", "--progress", *words], path, report, environment(one_heap=True))


def run_other(other, log2m, path, report):
    return watched([other, "--log2m", log2m, "--large", "--threads", "4"], path, report, environment(one_heap=True))


def lone_vertices(count, file):
    """A record for each vertex."""
    for first in range(0, count, 65536):
        file.write("".join(f"{v}\n" for v in range(first, min(count, first + 65536))).encode())


def like_records(count, file):
    """The same record again and again."""
    for first in range(0, count, 65536):
        file.write(b"0\t1\n" * min(65536, count - first))


def is_refused(path, fault):
    """Whether a list is refused without --large, and nothing is written."""
    with tempfile.TemporaryFile() as report:
        found = run(["--log2m", "4"], path, report)
        empty = report.seek(0, os.SEEK_END) == 0
    print(f"without --large: status {found.status}, {' / '.join(found.lines())}, {found.whole:.1f} s", flush=True)
    return (found.status, found.lines(), empty) == (1, [fault], True)


def is_answered(path, wanted, other):
    """Whether the list has a report with --large, which is the other program's where there is one."""
    with tempfile.TemporaryFile() as report, tempfile.TemporaryFile() as beside:
        found = run(["--log2m", "4", "--large"], path, report)
        same = other is None or run_other(other, "4", path, beside).status == 0 and digest_of(report) == digest_of(beside)
    told = found.lines()[:1]
    print(f"with --large: status {found.status}, {' / '.join(told)}, {found.whole:.1f} s, {found.peak:.0f} MiB{'' if same else ', ANOTHER REPORT'}", flush=True)
    return same and found.status == 0 and told == [wanted]


def limits(other, folder):
    """Whether one vertex and one record too many are refused without the word, and answered with it."""
    fine = True
    for name, write, usual, records, vertices in [
        ("vertices", lone_vertices, USUAL_VERTICES, USUAL_VERTICES + 1, USUAL_VERTICES + 1),
        ("records", like_records, USUAL_RECORDS, USUAL_RECORDS + 1, 2),
    ]:
        print(f"{usual + 1:,} {name}", flush=True)
        path = os.path.join(folder, "edges")
        with open(path, "wb") as file:
            write(usual + 1, file)
        fine &= is_refused(path, f"hyperball: too many {name}")
        fine &= is_answered(path, f"hyperball: {records} records and {vertices} vertices are read", other)
        os.remove(path)
    return fine


def row(cells):
    return "| " + " | ".join(cells) + " |"


def own_row(name, found):
    """The line of the table for a run of this program."""
    at, line, peak = found.read()
    records, vertices = line.split()[1], line.split()[4]
    seconds = [f"{at:.1f}", f"{found.supersteps():.1f}", f"{found.whole:.1f}", f"{found.processor:.1f}"]
    return row([name, "this one", vertices, records, str(len(found.ends())), *seconds, f"{peak:.0f}", f"{found.peak:.0f}", ""])


def other_row(name, found, same):
    """That of the other one, of which the whole run alone is timed."""
    return row([name, "the other", "", "", "", "", "", f"{found.whole:.1f}", f"{found.processor:.1f}", "", f"{found.peak:.0f}", "the same" if same else "ANOTHER"])


def made(name, path):
    """Writes a graph's list, and gives what is told of it once it is read."""
    kind, vertices, records = GRAPHS[name]
    started = time.monotonic()
    with open(path, "wb") as file:
        subprocess.run([sys.executable, os.path.join(HERE, "generate.py"), kind, str(records), "1", str(vertices)], stdout=file, check=True)
    print(f"{name}: a list of {os.path.getsize(path):,} bytes, made in {time.monotonic() - started:.0f} s", file=sys.stderr, flush=True)
    return f"hyperball: {records} records and {vertices} vertices are read"


def ends(name, log2m, other, folder):
    """Whether a graph runs to its end, and has the other program's report where there is one."""
    path = os.path.join(folder, "edges")
    told = made(name, path)
    with tempfile.TemporaryFile() as report, tempfile.TemporaryFile() as beside:
        found = run(["--log2m", log2m, "--large"], path, report)
        fine = found.status == 0 and told in found.lines()
        print(own_row(name, found) if fine else f"{name}: status {found.status}, {' / '.join(found.lines()[-1:])}", flush=True)
        if fine and other is not None:
            there = run_other(other, log2m, path, beside)
            fine = there.status == 0 and digest_of(report) == digest_of(beside)
            print(other_row(name, there, fine), flush=True)
    os.remove(path)
    return fine


def asked():
    words = argparse.ArgumentParser(description=__doc__, formatter_class=argparse.RawDescriptionHelpFormatter)
    words.add_argument("--log2m", default="8", metavar="N")
    words.add_argument("--beside", metavar="PROGRAM")
    words.add_argument("what", nargs="*", metavar="limits|livejournal|orkut")
    given = words.parse_args()
    if unknown := [it for it in given.what if it not in ["limits", *GRAPHS]]:
        words.error(f"no such word: {unknown[0]}")
    return given


def main():
    given = asked()
    end_in_order()
    fine = True
    with tempfile.TemporaryDirectory() as folder:
        if not given.what or "limits" in given.what:
            fine &= limits(given.beside, folder)
        graphs = [name for name in GRAPHS if not given.what or name in given.what]
        if graphs:
            print(row(COLUMNS), row(["---"] * len(COLUMNS)), sep="\n", flush=True)
        for name in graphs:
            fine &= ends(name, given.log2m, given.beside, folder)
    return 0 if fine else 1


if __name__ == "__main__":
    sys.exit(main())
