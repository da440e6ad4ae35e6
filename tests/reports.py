#!/usr/bin/env python3
"""Compares reports with those that oracle.py works out: of examples/, of cases/, and the program's of random graphs.

Usage: tests/reports.py [GRAPHS [SEED]]   (100 random graphs, seed 0; the program is $HYPERBALL, or else ./hyperball)

Random graphs have labels of any bytes, self-loops, edges that are there twice, lone vertices, comments, empty lines and all
ends of lines, and some a record that is refused. Runs have any delimiter, estimate, log2m, seed, limit and counted list,
and any numbers of threads, partitions and replicas. The last line counts what agreed; the status is 1 where something
did not.
"""
import os
import random
import re
import subprocess
import sys
from concurrent.futures import ProcessPoolExecutor
from pathlib import Path

from hints import told_of
from oracle import DELIMITERS, answer_of

TOP = Path(__file__).resolve().parent.parent
PROGRAM = os.environ.get("HYPERBALL", TOP / "hyperball")
STORED = {"two-edges": "--log2m 4", "club": "--log2m 4", "web": "--log2m 6 --estimate corrected",
          "committee": "--log2m 4 --estimate corrected --counted"}
# The faults that the definitions have. Other ones are of other options, of lost workers, or of what a system refuses.
FAULTS = tuple(f"hyperball: {text}".encode() for text in ("record ", "no line %% ", "log2m is ", "parts is ", "limit is "))
PROGRESS = re.compile(rb"hyperball: (\d+ records |the supersteps begin|superstep \d|the report is written)")


def stored():
    """The reports of examples/: the place of each, its words, its input and the end that is shown."""
    for name, words in STORED.items():
        lists = ["club.tsv", "committee.txt"] if name == "committee" else [f"{name}.tsv"]
        text = b"%%\n".join((TOP / "examples" / it).read_bytes() for it in lists)
        yield f"examples/{name}.csv", words.split(), text, (0, (TOP / "examples" / f"{name}.csv").read_bytes(), b"")


def spelled(text):
    """A line of a case, which ends in an LF if not in a backslash."""
    return (text[:-1] if text.endswith("\\") else text + "\n").encode().decode("unicode_escape").encode("latin-1")


def played():
    """The cases of `check` that are runs, and end in a report or in one of those faults."""
    pieces = {}
    for file in sorted((TOP / "tests/cases").glob("*.txt"), key=lambda it: (it.name not in ("pieces.txt", "vectors.txt"), it.name)):
        for case in file.read_text().split("\n\n"):
            name, wishes, status, parts = "", [], 0, {"<": b"", ">": b"", "!": b"", "*": b""}
            for line in case.splitlines():
                mark, text = line[0], line[1:].removeprefix(" ")
                if mark == "@":
                    name, pieces[text] = text, b""
                elif mark == ":":
                    pieces[name] += spelled(text)
                elif mark in parts:
                    parts[mark] += pieces[text[1:]] if text.startswith("@") else spelled(text)
                elif mark == "$":
                    wishes.append(text.removeprefix("$ "))
                elif mark == "=":
                    status = int(text)
            told = b"".join(line for line in parts["!"].splitlines(True) if not PROGRESS.match(line))
            if not parts["*"] and (status == 0 or told.splitlines()[-1].startswith(FAULTS)):
                for words in wishes:
                    if words.startswith("run"):
                        yield f"{file.name}, {words}", words.split()[1:], parts["<"], (status, parts[">"], told)


def list_of(chance, delimiter, labels, most):
    """Lines of up to two labels, empty ones and comments; now and then a line that is refused."""
    def record():
        kind = chance.random()
        if kind < 0.1:
            return chance.choice([b"", b"# " + chance.choice(labels), b"%%"])
        return delimiter.join(chance.choices(labels, k=chance.choice([1, most, most, most])))

    lines = [record() for _ in range(chance.randrange(len(labels) * 4))]
    if chance.random() < 0.1:
        refused = chance.choice([delimiter, b"x" + delimiter, delimiter.join([b"x"] * 3), b"\xef\xbb\xbf"])
        lines.insert(chance.randrange(len(lines) + 1), refused)
    front = chance.choice([b"", b"", b"", b"\xef\xbb\xbf"])
    return front + b"".join(line + chance.choice([b"\n", b"\n", b"\r\n"]) for line in lines)


def graph_of(number, seed):
    """Words of a run, and its input."""
    chance = random.Random(f"{number} {seed}")
    name, delimiter = chance.choice(list(DELIMITERS.items()))
    bytes_ = [it for it in [*b'ab0 ,\t"#%\x00\x80\xff', chance.randrange(256)] if bytes([it]) not in (delimiter, b"\r", b"\n")]
    labels = sorted({bytes(chance.choices(bytes_, k=chance.choice([1, 2, 3, 20]))) for _ in range(chance.choice([1, 3, 10, 40]))})
    text = list_of(chance, delimiter, labels, 2)
    words = [f"--delimiter={name}", "--estimate", chance.choice(["raw", "corrected"]), f"--log2m={chance.randrange(4, 11)}"]
    words += ["--seed", str(chance.choice([0, 1, chance.randrange(2**64), 2**64 - 1]))]
    words += ["--limit", str(chance.randrange(1, 5))] if chance.random() < 0.2 else []
    words += ["--threads", str(chance.choice([0, 1, 2, 3, 8])), "--parts", str(chance.choice([1, 1, 2, 3, 5, 64]))]
    words += ["--replicas", str(chance.choice([1, 1, 2])), *chance.choice([[], ["--large"], ["--keep", "0"]])]
    if chance.random() < 0.3:
        words.append("--counted")
        known = [label for label in labels if label in text and not label.startswith((b"#", b"\xef\xbb\xbf"))]
        text += b"%%\n" + list_of(chance, delimiter, known or labels, 1)
    return words, text if chance.random() < 0.8 else text.removesuffix(b"\n").removesuffix(b"\r")


def agrees(place, words, text, wanted):
    """Whether the oracle's end is the one that is wanted."""
    status, report, fault = answer_of(words, text)
    answer = status, report, told_of(words, text) + fault
    if answer != wanted:
        print(f"{place}: the oracle says otherwise, with {' '.join(words)} of {text!r}: {answer} and not {wanted}", file=sys.stderr)
    return answer == wanted


def is_found(number, seed):
    """Whether the program comes to the oracle's end for a random graph; and whether that is a fault."""
    words, text = graph_of(number, seed)
    ran = subprocess.run([PROGRAM, "run", *words], input=text, capture_output=True, timeout=300)
    end = ran.returncode, ran.stdout, ran.stderr
    return agrees(f"random graph {number} of seed {seed}", words, text, end), end[0] != 0


def main():
    graphs, seed = map(int, sys.argv[1:] + ["100", "0"][len(sys.argv) - 1:])
    known = [agrees(*it) for it in [*stored(), *played()]]
    with ProcessPoolExecutor() as pool:
        found = list(pool.map(is_found, range(graphs), [seed] * graphs, chunksize=5))
    print(f"{known.count(True)} of {len(known)} known reports and faults agree, and {sum(it for it, _ in found)} of {graphs} random "
          f"graphs of seed {seed} ({sum(refused for _, refused in found)} refused)")
    return 0 if all(known) and all(it for it, _ in found) else 1


if __name__ == "__main__":
    sys.exit(main())
