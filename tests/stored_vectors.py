#!/usr/bin/env python3
"""Writes the stored graphs that tests of the crate `stored` read and write.

Usage: tests/stored_vectors.py > crates/stored/src/tests/vectors.rt

All is made from the format alone (docs/FORMATS.md, "Stored graph, version 1") by the standard library, and nothing of it by the
program: where the program has the same bytes, two programs agree.
"""
import hashlib
import struct

BLOCK_VERTICES = 1 << 16
BLOCK_BITS = 1 << 20


def gamma(number):
    """Elias gamma: as many zero bits as the number has binary digits but one, then these digits."""
    digits = bin(number)[2:]
    return "0" * (len(digits) - 1) + digits


def list_bits(elements):
    """How many there are and one more; the first and one more; the gap to each further one."""
    bits = gamma(len(elements) + 1)
    last = -1
    for element in elements:
        bits += gamma(element - last)
        last = element
    return bits


def code_bytes(lists):
    """The bits of the lists, with zero bits up to the next whole byte."""
    bits = "".join(list_bits(elements) for elements in lists)
    bits += "0" * (-len(bits) % 8)
    return bytes(int(bits[at : at + 8], 2) for at in range(0, len(bits), 8))


def blocks_of(lists):
    """A block ends with the list that makes it 65,536 lists or 2^20 bits, or with the last."""
    blocks, block, bits = [], [], 0
    for elements in lists:
        block.append(elements)
        bits += len(list_bits(elements))
        if len(block) >= BLOCK_VERTICES or bits >= BLOCK_BITS:
            blocks.append(block)
            block, bits = [], 0
    return blocks + [block] if block else blocks


def stored(labels, lists):
    """The stored graph of labels, and of the predecessors of each vertex."""
    text = b"".join(label + b"\n" for label in labels)
    edges = sum(len(elements) for elements in lists)
    made = b"HBGR" + b"\x01" + struct.pack(">IQQ", len(lists), edges, len(text)) + text
    for block in blocks_of(lists):
        code = code_bytes(block)
        made += struct.pack(">IQ", len(block), len(code)) + code
    return made + hashlib.sha256(made).digest()


def show(name, doc, made):
    """A static of these bytes, laid out as rt fmt does."""
    print(f"/// {doc}")
    print(f"pub(super) static {name}: [u8; {len(made)}] = [")
    rows = [", ".join(f"0x{byte:02x}" for byte in made[at : at + 16]) for at in range(0, len(made), 16)]
    print("".join(f"    {row},\n" for row in rows) + "];")


def main():
    print("//! Stored graphs, made from the format alone by tests/stored_vectors.py.\n")
    show("TWO_EDGES", "The edges a to b and b to c.", stored([b"a", b"b", b"c"], [[], [0], [1]]))
    print()
    show("EMPTY", "No vertex.", stored([], []))
    print()
    # A vertex of every other one as a predecessor, itself too; and labels of two bytes.
    labels = [b"v%d" % v for v in range(10)]
    lists = [[y for y in range(10) if (x + y) % 3 == 0] for x in range(10)]
    show("TEN", "Ten vertices, and an edge between each two whose sum is a multiple of 3.", stored(labels, lists))


if __name__ == "__main__":
    main()
