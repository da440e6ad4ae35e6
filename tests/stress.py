#!/usr/bin/env python3
"""Runs of many workers by the built program: whatever the schedule, the report of one worker, or the one right fault.

Usage: tests/stress.py [RUNS [SEED]]   (200 runs, seed 0)

Each run has a small random graph, random numbers of partitions and replicas (up to twelve workers), snapshots as they
come, and random workers that are lost or start anew. Four runs go at once, so that schedules differ. Where the orders
leave each partition a worker, the bytes have to be those of one worker. Else the fault names the least of the
partitions that were lost first: a partition is lost at the greatest superstep at which one of its workers is, and no
other one gets past that superstep. Prints a line; the status is 1 where a run went wrong.
"""
import os
import random
import subprocess
import sys
import time
from concurrent.futures import ThreadPoolExecutor

from tried import PROGRAM



def ran(words, edges):
    """Status, output and faults of one run; a run of 60 seconds counts as one that hangs."""
    try:
        run = subprocess.run([PROGRAM, "run", *words], input=edges, capture_output=True, timeout=60)
    except subprocess.TimeoutExpired:
        return "hangs", b"", b""
    return run.returncode, run.stdout, run.stderr


def orders(chance, parts, replicas):
    """Some workers, each with a superstep; of two orders for one worker the first counts."""
    return [(chance.randrange(parts), chance.randrange(replicas), chance.randrange(7)) for _ in range(chance.randrange(6))]


def listed(some):
    return ",".join(f"{p}.{k}@{s}" for p, k, s in some)


def lost_first(parts, replicas, lose, end):
    """The partition that the fault names, where one is lost by the end of the run."""
    first = {}
    for p, k, s in lose:
        first.setdefault((p, k), s)
    lost = [(max(first[p, k] for k in range(replicas)), p) for p in range(parts) if all((p, k) in first for k in range(replicas))]
    return min(lost)[1] if lost and min(lost)[0] <= end else None


def try_one(number, seed):
    """One run by its number: whether a partition was lost, and what was wrong."""
    chance = random.Random(seed * 1000003 + number)
    many = chance.randrange(1, 13)
    edges = "".join(f"{chance.randrange(many)}\t{chance.randrange(many)}\n" for _ in range(chance.randrange(3 * many))).encode()
    plan = ["--log2m", str(chance.randrange(4, 7)), "--seed", str(chance.randrange(1000))]
    parts, replicas = chance.randrange(1, 5), chance.randrange(1, 4)
    lose, restart = orders(chance, parts, replicas), orders(chance, parts, replicas)
    words = plan + ["--parts", str(parts), "--replicas", str(replicas), "--keep", str(chance.choice([0, 1, 1, 2, 3]))]
    words += (["--lose", listed(lose)] if lose else []) + (["--restart", listed(restart)] if restart else [])
    alone = ran(plan, edges)
    end = next((int(line.split(b",")[1]) for line in alone[1].splitlines() if line.startswith(b"end,")), -1)
    lost = lost_first(parts, replicas, lose, end)
    fault = b"hyperball: every replica of partition %d was lost\n" % lost if lost is not None else b""
    wanted = alone if lost is None else (1, b"", fault)
    answer = ran(words, edges)
    fine = alone[0] == 0 and end >= 0 and answer == wanted
    return lost is not None, None if fine else (words, edges, answer, wanted)


def main():
    runs = int(sys.argv[1]) if len(sys.argv) > 1 else 200
    seed = int(sys.argv[2]) if len(sys.argv) > 2 else 0
    started = time.monotonic()
    with ThreadPoolExecutor(4) as pool:
        all_ = list(pool.map(lambda number: try_one(number, seed), range(runs)))
    wrong = [it for _, it in all_ if it]
    print(f"{runs} runs, {sum(lost for lost, _ in all_)} of them lost a partition, {len(wrong)} wrong, {time.monotonic() - started:.0f} s")
    for it in wrong[:5]:
        print("   ", *it, file=sys.stderr)
    sys.exit(1 if wrong else 0)


if __name__ == "__main__":
    main()
