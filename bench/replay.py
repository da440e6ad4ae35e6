#!/usr/bin/env python3
"""Measures ./hyperball replay: seconds and bytes a message, for scripts of more and more events.

Usage: bench/replay.py [EVENTS ..]      (10000, 30000 and 100000 where none is given)

A random graph of 1,000 vertices and 5,000 edges in 4 partitions of 2 replicas. In each round every node sends its
superstep to each other partition, the messages come to both replicas of their partition (those of the two rounds before
come once more), and every node closes. Every seventh round a node keeps, and every eleventh one restarts and recovers
from a copy of the other replica, so that no node ever waits. Where nothing is quadratic in the number of messages, the
time of an event stays the same from line to line. Times are the best of three runs; the start is a script of one event.
"""
import os
import random
import subprocess
import sys
import tempfile
import time

from launched import environment, program

ENVIRONMENT = environment()
VERTICES, EDGES, PARTS, REPLICAS = 1000, 5000, 4, 2
WORDS = ["replay", "--log2m", "8", "--parts", str(PARTS), "--replicas", str(REPLICAS)]


def edges(draw):
    """The lines of a path, which takes a thousand supersteps, and of edges back from a vertex to one before it."""
    path = [f"{v}\t{v + 1}\n" for v in range(VERTICES - 1)]
    back = []
    for _ in range(EDGES - len(path)):
        v = draw.randrange(1, VERTICES)
        back.append(f"{v}\t{draw.randrange(max(0, v - 20), v)}\n")
    return "".join(path + back)


def events(count, draw):
    """So many commands."""
    nodes = [(p, k) for p in range(PARTS) for k in range(REPLICAS)]
    made, rounds, sent, copies = [], [], 0, 0
    while len(made) < count:
        messages = []
        for p, k in nodes:
            for q in range(PARTS):
                if q != p:
                    made.append(f"send {p}.{k} {q}")
                    messages.append((sent, q))
                    sent += 1
        rounds.append(messages)
        for message, q in [it for messages in rounds[-3:] for it in messages]:
            made += [f"deliver {message} {q}.{k}" for k in range(REPLICAS)]
        made += [f"close {p}.{k}" for p, k in nodes]
        p, k = draw.choice(nodes)
        if len(rounds) % 7 == 0:
            made.append(f"keep {p}.{k}")
        if len(rounds) % 11 == 0:
            made += [f"restart {p}.{k}", f"copy {p}.{1 - k}", f"recover {p}.{k} {copies}"]
            copies += 1
    return made[:count]


def timed(text):
    """Seconds and peak memory (MiB) of a replay, and its answers."""
    with tempfile.TemporaryFile() as given, tempfile.TemporaryFile() as answers:
        given.write(text.encode())
        given.seek(0)
        started = time.monotonic()
        child = subprocess.Popen([program(), *WORDS], stdin=given, stdout=answers, env=ENVIRONMENT)
        _, status, usage = os.wait4(child.pid, 0)
        seconds = time.monotonic() - started
        child.returncode = 0
        if status:
            sys.exit("the replay failed")
        answers.seek(0)
        return seconds, usage.ru_maxrss / 1024, answers.read().decode()


def message_bytes(answers):
    """The bytes of all messages that were sent: 54 and, for each row, 4 and 256 registers."""
    rows = [int(line.split()[6]) for line in answers.split("\n") if line.startswith("sent ")]
    return sum(54 + 260 * it for it in rows), len(rows)


def main():
    program()
    draw = random.Random(1)
    graph = edges(draw)
    start, _, _ = min(timed(f"{graph}%%\nshow 9.9\n") for _ in range(3))
    print("events    messages  bytes a message  seconds  of these the start  microseconds an event  peak MiB  taken   closed")
    for count in [int(word) for word in sys.argv[1:]] or [10_000, 30_000, 100_000]:
        text = f"{graph}%%\n" + "\n".join(events(count, random.Random(2))) + "\n"
        seconds, peak, answers = min(timed(text) for _ in range(3))
        size, sent = message_bytes(answers)
        each = (seconds - start) / count * 1e6
        taken = answers.split("\n").count("new")
        closed = answers.count("\nclosed ")
        print(f"{count:<9} {sent:<9} {size / max(1, sent):<16.0f} {seconds:<8.2f} {start:<19.3f} {each:<22.1f} {peak:<9.0f} {taken:<7} {closed}", flush=True)


main()
