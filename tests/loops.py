#!/usr/bin/env python3
"""Runs the tests that read random bytes over more of them: what the program gets no bytes for from outside.

Usage: tests/loops.py [ROUNDS [SEED [NAME ..]]]   (100000 rounds, seed 1, all that are listed below)

Each test has a loop of a thousand rounds with a fixed seed. Here a copy of its crate gets more rounds and another seed,
and is run without a proof, with checks in its place (rt try). Prints a line for each; the status is 1 where one failed.
"""
import os
import shutil
import subprocess
import sys
import tempfile
import time

TOP = os.path.join(os.path.dirname(os.path.abspath(__file__)), "..")
# Crate, file, test, inputs in a round, and what else is changed: counts that
# hold for a thousand rounds alone. (ROUNDS stands for how many there are.)
LOOPS = {
    "decode": ("base_tests", "of_batches/damage", "batches_with_bits_turned_and_random_ones", 2,
               [("assert_eq!(rt; seen(rt.alloc()), Some((READ_TURNED, 354)))", "assert!(rt; matches!(seen(rt.alloc()), Some((READ_TURNED, _))))")]),
    "lists": ("base_tests", "of_gapcode/damage", "random_lists", 1,
              [("assert_eq!(rt; see_random(rt.alloc()), Some(28))", "assert!(rt; see_random(rt.alloc()).is_some())")]),
    "lists-changed": ("base_tests", "of_gapcode/damage", "lists_with_some_bits_turned", 1, []),
    "checkpoints": ("state_tests", "of_checkpoint/damage", "random_checkpoints", 2, []),
    "scripts": ("world", "tests/random", "random_scripts", 2,
                [("seen.answered > 1000 && seen.refused > 100", "seen.answered >= ROUNDS && seen.refused > 0")]),
    "scripts-any": ("world", "tests/random", "scripts_of_random_bytes", 1, [("seen.refused > 800", "seen.refused > 0")]),
    "edges": ("edgelist", "tests/damage", "random_edge_lists", 1, []),
    "edges-changed": ("edgelist", "tests/damage", "edge_lists_with_some_bytes_changed", 1, []),
    "counted-changed": ("edgelist", "tests/damage", "counted_lists_with_some_bytes_changed", 2, []),
}


def copied(folder, crate, rounds, seed, file, more):
    """A copy of the tree in which a crate is changed."""
    shutil.copy(os.path.join(TOP, "crates.txt"), folder)
    shutil.copytree(os.path.join(TOP, "crates"), os.path.join(folder, "crates"), ignore=shutil.ignore_patterns("out"))
    place = os.path.join(folder, "crates", crate)
    source = os.path.join(place, "src", file + ".rt")
    with open(source) as text:
        now = text.read()
    for old, new in [("0..1000 {", f"0..{rounds} {{"), ("let mut state = ", f"let mut state = {seed}0000"), *more]:
        if old not in now:
            sys.exit(f"{crate}, {file}: no {old}")
        now = now.replace(old, new.replace("ROUNDS", str(rounds)))
    with open(source, "w") as text:
        text.write(now)
    return place


def main():
    rounds = int(sys.argv[1]) if len(sys.argv) > 1 else 100000
    seed = int(sys.argv[2]) if len(sys.argv) > 2 else 1
    wrong = 0
    for name in sys.argv[3:] or LOOPS:
        crate, file, test, inputs, more = LOOPS[name]
        path = f"{file.replace('/', '::')}::{test}"
        with tempfile.TemporaryDirectory() as folder:
            place = copied(folder, crate, rounds, seed, file, more)
            started = time.monotonic()
            words = ["rt", "try", "--test", "--seconds", "3600", "--", path]
            run = subprocess.run(words, cwd=place, capture_output=True, text=True)
        passed = run.returncode == 0 and f"test {path} ... ok" in run.stdout + run.stderr
        wrong += not passed
        print(f"{name:16} {rounds * inputs:8} inputs {'ok' if passed else 'WRONG'}  {time.monotonic() - started:.0f} s", flush=True)
        if not passed:
            print(run.stdout[-2000:], run.stderr[-2000:], file=sys.stderr)
    return 1 if wrong else 0


if __name__ == "__main__":
    sys.exit(main())
