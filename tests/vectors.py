#!/usr/bin/env python3
"""Writes the batches and checkpoints that cases and tests bring to nodes and gatherings, and want of them.

Usage: tests/vectors.py > tests/cases/vectors.txt
       tests/vectors.py tests > crates/node/src/tests/vectors.rt, and the same of crate hyperball

All is made from docs/DEFINITIONS.md (balls, hashes, counters, figures) and docs/FORMATS.md (the bytes) by the standard
library alone, and nothing of it by the program: where a node answers the same bytes, two programs agree. The job has
edges from a to b and from b to c, which are vertices 0, 1 and 2, with 16 registers, seed 0, limit 4096 and two
partitions: a and c are of partition 0, and b of partition 1.
"""
import hashlib
import struct
import sys

EDGES = [(0, 1), (1, 2)]
VERTICES = 3
LOG2M = 4
REGISTERS = 1 << LOG2M
SEED = 0
PARTS = 2
LIMIT = 4096
COUNTED = [0, 1, 2]  # the vertices that are counted
END = 3  # the superstep at which nothing changes any more

MILLION = 1_000_000
ALPHA = {16: (673, 1000)}  # as a fraction, by the number of registers
WORD = (1 << 64) - 1


# Balls and counters.


def hash_of(vertex):
    """The step and the finalizer of SplitMix64."""
    mixed = (SEED + (vertex + 1) * 0x9E3779B97F4A7C15) & WORD
    mixed = ((mixed ^ (mixed >> 30)) * 0xBF58476D1CE4E5B9) & WORD
    mixed = ((mixed ^ (mixed >> 27)) * 0x94D049BB133111EB) & WORD
    return mixed ^ (mixed >> 31)


def index_of(hashed):
    """The top bits."""
    return hashed >> (64 - LOG2M)


def rank_of(hashed):
    """Where the first 1 is in the 32 bits after the index, or 33."""
    tail = (hashed >> (32 - LOG2M)) & 0xFFFFFFFF
    return 33 - tail.bit_length()


def ball(vertex, superstep):
    """The vertices with a path to this one of at most so many edges. Before superstep 0 there are none."""
    members = {vertex} if superstep >= 0 else set()
    for _ in range(superstep):
        members |= {source for source, target in EDGES if target in members}
    return members


def counter(vertex, superstep):
    """The registers: the greatest rank of a member of the ball that falls into each."""
    registers = [0] * REGISTERS
    for member in sorted(ball(vertex, superstep).intersection(COUNTED)):
        hashed = hash_of(member)
        registers[index_of(hashed)] = max(registers[index_of(hashed)], rank_of(hashed))
    return registers


def is_changed(vertex, superstep):
    return counter(vertex, superstep) != counter(vertex, superstep - 1)


# Figures, in millionths.


def estimate(vertex, superstep):
    """The raw estimate: alpha m^2 / (the sum of 2^-r)."""
    above, below = ALPHA[REGISTERS]
    inverses = sum(1 << (33 - rank) for rank in counter(vertex, superstep))
    return above * REGISTERS**2 * MILLION * (1 << 33) // (below * inverses)


def gains(vertex, superstep):
    """Each superstep from 1 on, and by how much the estimate grew there."""
    return [(i, estimate(vertex, i) - estimate(vertex, i - 1)) for i in range(1, superstep + 1)]


def harmonic(vertex, superstep):
    return sum(gain // i for i, gain in gains(vertex, superstep))


def distances(vertex, superstep):
    return sum(gain * i for i, gain in gains(vertex, superstep))


# Partitions.


def vertices_of(part):
    return range(part, VERTICES, PARTS)


def changed_count(part, superstep):
    return sum(is_changed(vertex, superstep) for vertex in vertices_of(part))


def leads_into(vertex, part):
    return any(source == vertex and target % PARTS == part for source, target in EDGES)


def accumulated(vertex, superstep, heard):
    """The greatest of its registers and of those of its changed predecessors in partitions that are heard."""
    registers = counter(vertex, superstep)
    for source, target in EDGES:
        if target == vertex and source % PARTS in heard and is_changed(source, superstep):
            registers = [max(pair) for pair in zip(registers, counter(source, superstep))]
    return registers


# Bytes. Batches and checkpoints are lists of groups of fields, which stand on a line each.


def job_digest():
    listed = len(COUNTED) < VERTICES
    text = struct.pack(">4sBQHIIQ", b"HBJ2" if listed else b"HBJ1", LOG2M, SEED, PARTS, LIMIT, VERTICES, len(EDGES))
    for source, target in sorted(EDGES, key=lambda edge: (edge[1], edge[0])):
        text += struct.pack(">II", source, target)
    if listed:
        text += struct.pack(f">{1 + len(COUNTED)}I", len(COUNTED), *COUNTED)
    return hashlib.sha256(text).digest()


def batch(superstep, source, target):
    """What a partition tells another of a superstep: its changed vertices that lead into that."""
    rows = [x for x in vertices_of(source) if is_changed(x, superstep) and leads_into(x, target)]
    head = struct.pack(">4sBBIHH", b"HBBT", 1, LOG2M, superstep, source, target)
    counts = struct.pack(">II", changed_count(source, superstep), len(rows))
    groups = [head, *halves(job_digest()), counts]
    for vertex in rows:
        groups.append(struct.pack(">I", vertex) + bytes(counter(vertex, superstep)))
    return groups


def figures_of(version, part, superstep):
    """What both versions of a checkpoint tell of a partition's vertices at a superstep."""
    own = vertices_of(part)
    groups = [
        struct.pack(">4sBBHHIII", b"HBCK", version, LOG2M, PARTS, part, VERTICES, len(own), superstep),
        *halves(job_digest()),
    ]
    for vertex in own:
        groups.append(bytes([is_changed(vertex, superstep)]))
        groups.append(struct.pack(">QQ", estimate(vertex, superstep), harmonic(vertex, superstep)))
        groups.append(distances(vertex, superstep).to_bytes(16, "big"))
        groups.append(bytes(counter(vertex, superstep)))
    for earlier in range(superstep + 1):
        groups.append(sum(estimate(vertex, earlier) for vertex in own).to_bytes(16, "big"))
    return groups


def sealed(groups):
    return groups + halves(hashlib.sha256(b"".join(groups)).digest())


def checkpoint(part, superstep, heard):
    """All that a node has at a superstep which has heard these others of it, and keeps no batches of later ones."""
    groups = figures_of(2, part, superstep)
    change = any(changed_count(source, superstep) for source in heard)
    groups.append(struct.pack(">QB", sum(1 << source for source in heard), change))
    groups += [bytes(accumulated(vertex, superstep, heard)) for vertex in vertices_of(part)]
    groups.append(struct.pack(">H", 0))
    return sealed(groups)


def old_checkpoint(part, superstep):
    """The same in version 1, which does not tell what was heard."""
    return sealed(figures_of(1, part, superstep))


def path_with_early(supersteps):
    """Partition 1 of the path a, b, c, d, e in two partitions at superstep 0, which keeps a batch of each of these
    supersteps. Each tells of one changed vertex and has no row, as no true one does: `TWO_EARLY` of crate `state_tests`
    is `b"".join(path_with_early([2, 3]))`."""
    global COUNTED
    before, COUNTED = COUNTED, range(5)
    edges = [(0, 1), (1, 2), (2, 3), (3, 4)]
    text = struct.pack(">4sBQHIIQ", b"HBJ1", LOG2M, SEED, PARTS, LIMIT, 5, len(edges))
    job = hashlib.sha256(text + b"".join(struct.pack(">II", *edge) for edge in edges)).digest()
    own = [1, 3]
    groups = [struct.pack(">4sBBHHIII", b"HBCK", 2, LOG2M, PARTS, 1, 5, len(own), 0), job]
    for vertex in own:
        groups.append(struct.pack(">BQQ16x", 1, estimate(vertex, 0), 0) + bytes(counter(vertex, 0)))
    groups.append(sum(estimate(vertex, 0) for vertex in own).to_bytes(16, "big") + bytes(9))
    groups += [bytes(counter(vertex, 0)) for vertex in own]
    groups.append(struct.pack(">H", len(supersteps)))
    for superstep in supersteps:
        head = struct.pack(">4sBBIHH", b"HBBT", 1, LOG2M, superstep, 0, 1)
        early = head + job + struct.pack(">II", 1, 0)
        groups.append(struct.pack(">Q", len(early)) + early)
    COUNTED = before
    return [*groups, hashlib.sha256(b"".join(groups)).digest()]


def halves(digest):
    return [digest[:16], digest[16:]]


# Pieces of cases, and literals.

WIDTH = 100  # of a line in the layout of `rt fmt`


def spelled(byte):
    return f"\\x{byte:02x}" if byte else "\\0"


def lines_of(groups):
    """The groups with a line for each. Marks of four letters stand as letters."""
    for group in groups:
        mark = group[:4] if group[:4] in (b"HBBT", b"HBCK") else b""
        yield mark.decode() + "".join(spelled(byte) for byte in group[len(mark) :])


def piece(name, about, groups):
    """A piece of these groups after its comment, and with its length in that."""
    length = sum(len(group) for group in groups)
    lines = "".join(f": {line}\\\n" for line in lines_of(groups))
    return f"# {about}: {length} bytes.\n@ {name}\n{lines}"


def constant(name, about, groups):
    """The same as a constant."""
    length = sum(len(group) for group in groups)
    text = 'b"' + "\\\n".join(lines_of(groups)) + '"'
    front = f"pub(super) const {name}: &[u8] ="
    # where the first line is too long, `rt fmt` wants the literal on a line of its own
    gap = " " if len(front) + 1 + text.index("\n") <= WIDTH else "\n    "
    return f"/// {about}: {length} bytes.\n{front}{gap}{text};\n"


HEAD = """\
# Batches and checkpoints of two edges, from a to b and from b to c, in two partitions: a and c are of the first, and b of
# the second; and checkpoints of the same edges in one partition. Counters have 16 registers under seed 0.
# tests/vectors.py prints this file, from the definitions and the formats alone: nothing of it comes from the program.
#
# A batch has a line for what is before the digest of the job, two for that, one for how many vertices changed and how
# many rows there are, and one for each row: its vertex and its registers.
#
# A checkpoint has a line for what is before the digest of the job, and two for that. Four follow for each vertex: its
# mark, its estimate and harmonic centrality, its sum of distances, its registers. Then comes a line for the sum of the
# estimates at each superstep, one for what is heard and whether a change is, one for the registers accumulated of each
# vertex, one for the number of batches, and two for the SHA-256 of all that. In version 1 those after the sums are
# missing, but for the last two.
"""

TESTS_HEAD = """\
//! Checkpoints of two edges, from a to b and from b to c, in two partitions: a and c are of the first, and b of the second.
//! Counters have 16 registers under seed 0. `tests/vectors.py tests` prints this file, from the definitions and the formats
//! alone: nothing of it comes from the program.
//!
//! A checkpoint has a line for what is before the digest of the job, and two for that. Four follow for each vertex:
//! its mark, its estimate and harmonic centrality, its sum of distances, its registers. Then comes a line for the sum of
//! the estimates at each superstep, one for what is heard and whether a change is, one for the registers accumulated of
//! each vertex, one for the number of batches, and two for the SHA-256 of all that.
"""


def all_batches():
    for source, name in enumerate(["first-tells", "second-tells"]):
        for superstep in range(END + 1):
            about = f"What partition {source} tells the other of superstep {superstep}"
            yield piece(f"{name}-{superstep}", about, batch(superstep, source, 1 - source))


def all_checkpoints():
    for name, part, superstep, heard, about in [
        ("first-start", 0, 0, [], "Partition 0 at its start"),
        ("second-start", 1, 0, [], "Partition 1 at its start"),
        ("second-heard", 1, 0, [0], "Partition 1 at superstep 0, which has heard the other"),
        ("first-end", 0, END, [1], "Partition 0 at the end"),
        ("second-end", 1, END, [0], "Partition 1 at the end"),
    ]:
        yield piece(name, about, checkpoint(part, superstep, heard))


def old_checkpoints():
    """Checkpoints of version 1."""
    for part, name in enumerate(["old-first-end", "old-second-end"]):
        yield piece(name, f"Partition {part} at the end, in version 1", old_checkpoint(part, END))


def all_fields():
    """What cases put together to batches and checkpoints of which one field is damaged."""
    digest = job_digest()
    other = bytes([digest[0] ^ 1]) + digest[1:]
    start = checkpoint(1, 0, [])
    least = b"".join(start)[:54]
    yield piece("job", "The digest of the job in two partitions", halves(digest))
    yield piece("other-job", "The same with one bit changed", halves(other))
    about = "What `second-start` begins with, one byte less than any checkpoint has"
    yield piece("start-cut", about, [start[0], least[22:38], least[38:53]])
    yield piece("start-rest", "What follows the first mark in `second-start`", start[4:])


def lone_checkpoints():
    """Checkpoints of the same edges in one partition."""
    global PARTS, COUNTED
    before = PARTS, COUNTED
    PARTS = 1
    yield piece("lone-step", "The only partition at superstep 1", checkpoint(0, 1, []))
    yield piece("lone-end", "The only partition at the end", checkpoint(0, END, []))
    yield piece("old-lone-end", "The only partition at the end, in version 1", old_checkpoint(0, END))
    COUNTED = [0]
    yield piece("listed-end", "The only partition at the end, where a alone is counted", checkpoint(0, END, []))
    PARTS, COUNTED = before


def all_constants():
    """What tests of the crates `node` and `hyperball` bring to a gathering."""
    yield constant("FIRST_END", "Partition 0 at the end", checkpoint(0, END, [1]))
    yield constant("SECOND_END", "Partition 1 at the end", checkpoint(1, END, [0]))


def main():
    if sys.argv[1:] == ["tests"]:
        print(TESTS_HEAD)
        print("\n".join(all_constants()), end="")
        return
    print(HEAD)
    pieces = [*all_batches(), *all_checkpoints(), *old_checkpoints(), *all_fields(), *lone_checkpoints()]
    print("\n".join(pieces), end="")


if __name__ == "__main__":
    main()
