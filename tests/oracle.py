#!/usr/bin/env python3
"""Works a report out as docs/DEFINITIONS.md and docs/FORMATS.md say it, slowly and with nothing of the program.

Usage: tests/oracle.py run WORDS.. < INPUT   (as the program, for a few hundred vertices; reports.py compares the two)
"""
import re
import sys

MILLION = 10**6  # estimates and figures are whole millionths
DELIMITERS = {"tab": b"\t", "comma": b",", "space": b" "}
DEFAULTS = {"log2m": 8, "seed": 0, "parts": 1, "limit": 4096, "estimate": "raw", "delimiter": "tab"}
RANGES = {"log2m": (4, 10), "parts": (1, 64), "limit": (1, 4096)}
ALPHA = {16: (673, 1000), 32: (697, 1000), 64: (709, 1000)}  # as fractions, by the number of registers


class Fault(Exception):
    """Why there is no report."""


# What an input says: records, labels, edges, and the vertices that are counted.

def records_of(text, delimiter):
    """The fields of each line that is neither empty nor a comment, numbered from 1."""
    lines = text.removeprefix(b"\xef\xbb\xbf").replace(b"\r\n", b"\n").split(b"\n")
    return enumerate((line.split(delimiter) for line in lines if line and not line.startswith(b"#")), 1)


def network_of(text, delimiter):
    """The vertex of each label, by first appearance, and the edges, each once."""
    labels, edges = {}, set()
    for number, fields in records_of(text, delimiter):
        if len(fields) > 2 or b"" in fields:
            raise Fault(f"record {number} has not one or two identifiers")
        vertices = [labels.setdefault(field, len(labels)) for field in fields]
        if len(vertices) == 2:
            edges.add(tuple(vertices))
    return labels, edges


def counted_of(text, delimiter, labels):
    """The vertices that a list names."""
    for number, fields in records_of(text, delimiter):
        if len(fields) > 1:
            raise Fault(f"record {number} of the list is not one identifier")
        if fields[0] not in labels:
            raise Fault(f"record {number} of the list names no vertex")
        yield labels[fields[0]]


# Balls, hashes and counters.

def distances_to(x, predecessors):
    """The least number of edges of a path to x, for each vertex that has one: breadth first, against the edges."""
    found, queue = {x: 0}, [x]
    for y in queue:
        for z in predecessors[y]:
            if z not in found:
                found[z] = found[y] + 1
                queue.append(z)
    return found


def place_of(vertex, log2m, seed):
    """Index and rank of a vertex's hash."""
    z = (seed + (vertex + 1) * 0x9E3779B97F4A7C15) % 2**64
    z = (z ^ z >> 30) * 0xBF58476D1CE4E5B9 % 2**64
    z = (z ^ z >> 27) * 0x94D049BB133111EB % 2**64
    hashed = z ^ z >> 31
    tail = (hashed >> 32 - log2m) % 2**32
    return hashed >> 64 - log2m, 33 - tail.bit_length()


def counter_of(places):
    """The greatest rank of each index. Registers that are 0 are left out."""
    counter = {}
    for index, rank in places:
        counter[index] = max(rank, counter.get(index, 0))
    return counter


# Estimates, figures and the report.

def estimate_of(counter, m, corrected):
    """By HyperLogLog's formula, or if that is small and to be corrected by how many draws fill so many of m places."""
    numerator, denominator = ALPHA.get(m, (7213 * m, 10 * (1000 * m + 1079)))  # 0.7213 / (1 + 1.079 / m)
    zeros = m - len(counter)
    powers = zeros * 2**33 + sum(2 ** (33 - rank) for rank in counter.values())  # the sum of 2^-r, times 2^33
    raw, bound = MILLION * numerator * m * m * 2**33 // (denominator * powers), MILLION * 5 * m // 2
    draws = sum(MILLION * m // k for k in range(zeros + 1, m + 1))
    return min(draws, bound) if corrected and raw < bound else raw


def report_of(labels, edges, counted, log2m, seed, limit, corrected):
    """The lines of a report."""
    vertices, m = range(len(labels)), 2**log2m
    predecessors = [[y for y, target in edges if target == x] for x in vertices]
    distances = [distances_to(x, predecessors) for x in vertices]
    places = [place_of(y, log2m, seed) for y in vertices]
    counters = []  # at each superstep t, of each vertex x: that of the counted vertices of its ball
    while len(counters) < 2 or counters[-1] != counters[-2] and len(counters) <= limit:
        t = len(counters)
        counters.append([counter_of(places[y] for y, d in ball.items() if d <= t and y in counted) for ball in distances])
    end = len(counters) - 1
    e = [[estimate_of(counter, m, corrected) for counter in row] for row in counters]
    total = [sum(row) for row in e]
    yield from (f"superstep,{t},{fixed(total[t])}" for t in range(end + 1))
    yield f"end,{end},{'stable' if counters[end] == counters[end - 1] else 'limit'}"
    yield f"gain,{fixed(sum((total[i] - total[i - 1]) // 2**i for i in range(1, end + 1)))}"
    for label, x in labels.items():
        new = [(i, e[i][x] - e[i - 1][x]) for i in range(1, end + 1)]
        reachable, harmonic, distance = e[end][x], sum(n // i for i, n in new), sum(n * i for i, n in new)
        closeness, lin = (10**12 // distance, reachable**2 // distance) if distance else (0, MILLION)
        figures = [*map(fixed, [reachable, harmonic, closeness, lin]), str(m - len(counters[end][x]))]
        yield ",".join(["vertex", quoted(label.decode("latin-1")), *figures])


def fixed(millionths):
    return f"{millionths // MILLION}.{millionths % MILLION:06}"


def quoted(field):
    return '"' + field.replace('"', '""') + '"' if re.search('[",\r\n]', field) else field


def answer_of(words, text):
    """The exit status of a run with these words, what it writes, and what it tells. Other options change none of that."""
    wish = dict(DEFAULTS)
    for name, value in re.findall(r"--(\w+)[ =](\w+)", " ".join(words)):
        wish[name] = int(value) if name in wish and value.isdigit() else value
    delimiter = DELIMITERS[wish["delimiter"]]
    try:
        lists = re.split(rb"(?:\A|(?<=\n))%%(?:\r?\n|\Z)", text, maxsplit=1) if "--counted" in words else [text, None]
        if len(lists) == 1:
            raise Fault("no line %% before the list")
        labels, edges = network_of(lists[0], delimiter)
        counted = set(labels.values() if lists[1] is None else counted_of(lists[1], delimiter, labels))
        for name, (least, most) in RANGES.items():
            if not least <= wish[name] <= most:
                raise Fault(f"{name} is not from {least} to {most}")
        lines = report_of(labels, edges, counted, wish["log2m"], wish["seed"], wish["limit"], wish["estimate"] == "corrected")
        return 0, "".join(line + "\n" for line in lines).encode("latin-1"), b""
    except Fault as fault:
        return 1, b"", f"hyperball: {fault}\n".encode()


if __name__ == "__main__":
    code, written, told = answer_of(sys.argv[2:], sys.stdin.buffer.read())
    sys.stdout.buffer.write(written)
    sys.stderr.buffer.write(told)
    sys.exit(code)
