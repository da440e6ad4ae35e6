#!/usr/bin/env python3
"""Measures whole runs, reading and supersteps, on one core and on four, beside other programs, all in one series.

Usage: bench/cores.py [--before PROGRAM] [--beside PROGRAM] [--best 5] [--records 5000000] [--log2m 4,8,10] [GRAPH ..]

GRAPH is web-like, power-law, urls or path (all, if none is named): bench/generate.py makes the first three, with so
many records, and urls is web-like with long addresses as labels; the path has 100,000 vertices and ends at superstep
300 (log2m 8).

Prints one table: for each graph and log2m the seconds of reading (by --progress: from the start to the line that
records and vertices are read), of the supersteps (from their begin to the line of the last one) and of the whole run,
all by the clock, and the peak memory while reading and of the whole run. Each has a column for every way to run it:
with --keep 0 and with snapshots, by one thread and by four. --before names another build of this program, which runs
the same ways, or without --threads if it refuses that. --beside names any program that takes --log2m, --threads and
--limit and writes the same bytes; its reading and supersteps are measured if it takes --progress. All ways are run in
turn, first once for their reports, which have to be the same, and then as often as --best says; of the seconds the
least stand in the table, and of the peaks the greatest. The line below it says how far like runs differed: stop all
other work first. HYPERBALL names another build to measure.
"""
import argparse
import os
import subprocess
import sys
import tempfile
from dataclasses import dataclass, field

from launched import environment, program
from watched import digest_of, end_in_order, watched

HERE = os.path.dirname(os.path.abspath(__file__))
PROGRAM = os.environ.get("HYPERBALL") or program()
GRAPHS = ("web-like", "power-law", "urls", "path")
MEASURES = ("reading, s", "supersteps, s", "whole run, s", "peak while reading, MiB", "peak, MiB")
PATH_VERTICES, PATH_LIMIT, PATH_LOG2M = 100_000, "300", "8"


@dataclass
class Way:
    """A way to run a graph, with the runs so far."""

    name: str
    words: list
    runs: list = field(default_factory=list)

    def watched(self, words, path, report):
        return watched([*self.words, *words], path, report, environment(one_heap=True))

    def measures(self):
        """The MEASURES as they stand in the table, each of them empty if no run tells it."""
        reads = [it.read() for it in self.runs if it.read() is not None]
        supersteps = [it.supersteps() for it in self.runs if it.supersteps() is not None]
        seconds = [at for at, _, _ in reads], supersteps, [it.whole for it in self.runs]
        peaks = [peak for _, _, peak in reads if peak > 0], [it.peak for it in self.runs]
        return [f"{min(it):.2f}" if it else "" for it in seconds] + [f"{max(it):.0f}" if it else "" for it in peaks]

    def spread(self):
        """The longest of the runs over the shortest."""
        return max(it.whole for it in self.runs) / min(it.whole for it in self.runs)


def takes(command, word):
    """Whether a program runs with this word."""
    run = subprocess.run([*command, *word], input=b"a\tb\n", stdout=subprocess.DEVNULL, stderr=subprocess.DEVNULL)
    return run.returncode == 0


def threads_of(command):
    """The words for one thread and for four, each with what it is called; or none, if the program refuses them."""
    some = [("1 thread", ["--threads", "1"]), ("4 threads", ["--threads", "4"])]
    return some if takes(command, ["--threads", "1"]) else [("", [])]


def own_ways(build, front):
    """The ways to run a build of this program."""
    command = [build, "run"]
    for name, keep in [("`--keep 0`", ["--keep", "0"]), ("snapshots", ["--restart", "0.0@4096"])]:
        for called, threads in threads_of(command):
            title = ", ".join(it for it in (front, name, called) if it)
            yield Way(title, [*command, "--progress", *keep, *threads])


def all_ways(given):
    ways = list(own_ways(PROGRAM, ""))
    if given.before:
        ways += own_ways(given.before, "before")
    if given.beside:
        progress = ["--progress"] if takes([given.beside], ["--progress"]) else []
        ways.append(Way("the other, 4 threads", [given.beside, "--threads", "4", *progress]))
    return ways


def write_graph(graph, records, file):
    if graph == "path":
        file.write("".join(f"{v}\t{v + 1}\n" for v in range(PATH_VERTICES - 1)).encode())
        file.flush()
    else:
        kind = graph.removesuffix("-like")
        subprocess.run([sys.executable, os.path.join(HERE, "generate.py"), kind, str(records)], stdout=file, check=True)


def are_same(ways, words, path):
    """Runs each way once, and says whether all reports are the same."""
    digests = set()
    for way in ways:
        with tempfile.TemporaryFile() as report:
            found = way.watched(words, path, report)
            digests.add(digest_of(report) if found.status == 0 else f"status {found.status} of {way.name}")
    return len(digests) == 1


def measure(ways, words, path, best):
    """Runs each way so many times, in turn."""
    for way in ways:
        way.runs.clear()
    for _ in range(best):
        for way in ways:
            way.runs.append(way.watched(words, path, subprocess.DEVNULL))


def row(cells):
    return "| " + " | ".join(cells) + " |"


def rows(graph, log2m, ways):
    """The lines of the table for one graph."""
    for name, values in zip(MEASURES, zip(*(way.measures() for way in ways))):
        yield row([graph, log2m, name, *values])


def asked():
    words = argparse.ArgumentParser(description=__doc__, formatter_class=argparse.RawDescriptionHelpFormatter)
    words.add_argument("--before", metavar="PROGRAM")
    words.add_argument("--beside", metavar="PROGRAM")
    words.add_argument("--best", type=int, default=5, metavar="N")
    words.add_argument("--records", type=int, default=5_000_000, metavar="N")
    words.add_argument("--log2m", type=lambda text: text.split(","), default=["4", "8", "10"], metavar="N,..")
    words.add_argument("graphs", nargs="*", metavar="GRAPH")
    given = words.parse_args()
    if unknown := [it for it in given.graphs if it not in GRAPHS]:
        words.error(f"no such graph: {unknown[0]}")
    return given


def main():
    given = asked()
    end_in_order()
    ways = all_ways(given)
    head = ["graph", "log2m", "", *(way.name for way in ways)]
    print(row(head), row(["---"] * len(head)), sep="\n", flush=True)
    fine, spread = True, 1
    for graph in given.graphs or GRAPHS:
        with tempfile.NamedTemporaryFile() as file:
            write_graph(graph, given.records, file)
            for log2m in [PATH_LOG2M] if graph == "path" else given.log2m:
                words = ["--log2m", log2m, *(["--limit", PATH_LIMIT] if graph == "path" else [])]
                if not are_same(ways, words, file.name):
                    print(f"cores.py: {graph}, log2m {log2m}: reports differ", file=sys.stderr)
                    fine = False
                    continue
                measure(ways, words, file.name, given.best)
                print("\n".join(rows(graph, log2m, ways)), flush=True)
                spread = max(spread, *(way.spread() for way in ways))
    print(f"\nThe least seconds of {given.best} runs each, in turn. Whole runs of one way differed by up to {100 * (spread - 1):.0f} %.")
    return 0 if fine else 1


if __name__ == "__main__":
    sys.exit(main())
