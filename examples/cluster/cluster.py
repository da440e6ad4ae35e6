#!/usr/bin/env python3
"""Runs a job of hyperball over a Dask cluster: the node of each partition is a process on a worker.

A worker has the nodes that live on it, the batches that these made since the last checkpoint, and checkpoints of nodes
of other workers. Dask brings batches and checkpoints from worker to worker, as bytes. Where a worker or a node is lost,
or does nothing for too long, its partitions start on others from the checkpoints that are kept, and catch up by the
batches that are still there. What was under way is asked again: a node that has heard a batch is as it was.
"""
import argparse
import logging
import shutil
import signal
import sys
import time
from contextlib import nullcontext

import tasks
from distributed import Client, LocalCluster
from node import Gone, Refused, gather, read_job
from workers import LOST, Workers


class Run:
    """A job whose nodes are dealt out to the workers of a cluster. No task's result is needed after its superstep."""

    def __init__(self, workers, asked, job):
        self.workers, self.asked, self.job, self.parts = workers, asked, job, range(asked.parts)
        self.words = [*asked.words, "--parts", str(asked.parts)]
        self.at = {}  # of each partition the superstep that its node has reached
        self.kept, self.copies = 0, {}  # the superstep of the checkpoints, and of each partition who has it
        self.started = 0  # how many nodes were

    def ask(self, function, part, *words):
        """A task for the worker that has the node of a partition."""
        return self.workers.ask(self.workers.place[part], function, part, *words)

    def revive(self):
        """Starts the nodes that are on no worker from what is kept."""
        self.workers.prepare()
        alive = self.workers.alive()
        lost = [part for part in self.parts if self.workers.place.get(part) not in alive]
        holders = {part: self.workers.chosen(alive & self.copies.get(part, set())) for part in lost}
        if self.kept and not all(holders.values()):  # no copy of a checkpoint is left: all begin again
            lost, self.kept = list(self.parts), 0
        if lost:
            self.start(lost, holders)

    def start(self, lost, holders):
        """Starts nodes from checkpoints that holders have, or at superstep 0 where none are kept."""
        place = self.workers.deal(lost)
        for part in lost:
            self.workers.place.pop(part, None)  # nobody waits for the worker that it was on
        job, begun = self.workers.bring(self.job, [place[part] for part in lost]), []
        for part in lost:
            checkpoint = self.workers.ask(holders[part][0], tasks.fetch, part, self.kept) if self.kept else b""
            words = len(self.parts), self.asked.program, self.words, job, checkpoint
            begun.append(self.workers.ask(place[part], tasks.start, part, *words))
        self.at.update(zip(lost, self.workers.values(begun)))
        self.workers.place, self.started = place, self.started + len(lost)

    def superstep(self):
        """The nodes that are least far go on by a superstep. Whether that leads on: else the run has ended."""
        least = min(self.at.values())
        behind = [part for part in self.parts if self.at[part] == least]
        if self.asked.progress:
            print(f"cluster: superstep {least}, {len(behind)} nodes", file=sys.stderr)
        sent = {part: [self.ask(tasks.fetch, source, least, part) for source in self.parts if source != part]
                for part in behind}
        self.workers.wait_for(sum(sent.values(), []))
        heard = [self.ask(tasks.hear, part, len(self.parts), self.kept, *sent[part]) for part in behind]
        self.at.update(zip(behind, self.workers.values(heard)))
        return min(self.at.values()) > least or len(behind) < len(self.parts)

    def keep(self):
        """Keeps a checkpoint of each node on two other workers, where there are any."""
        superstep, alive, held = self.at[0], self.workers.alive(), {}
        for part in self.parts:
            given = self.ask(tasks.give, part)
            others = self.workers.chosen(alive - {given.worker} or alive)[:2]
            held[part] = [self.workers.ask(other, tasks.hold, part, superstep, given) for other in others]
        self.workers.wait_for(sum(held.values(), []))
        self.kept, self.copies = superstep, {part: {future.worker for future in held[part]} for part in self.parts}

    def checkpoints(self):
        """The checkpoint of each node, one at a time."""
        for part in self.parts:
            yield from self.workers.values([self.ask(tasks.give, part)])

    def drive(self):
        """Takes the run to its end, whatever is lost on the way. The status of its report."""
        tries, every = 0, self.asked.keep
        while True:
            try:
                self.revive()
                while self.superstep():
                    tries = 0
                    if every and self.at[0] % every == 0 and set(self.at.values()) == {self.at[0]}:
                        self.keep()
                return gather(self.asked.program, self.words, self.job, self.checkpoints())
            except LOST as error:
                tries += 1
                if tries > 10:
                    raise Refused(f"begun again {tries} times, and no superstep was closed: {error!r}") from error
                for part in error.args if isinstance(error, Gone) else []:
                    self.workers.place.pop(part, None)
                time.sleep(1)


def read_command_line():
    """What is asked for."""
    parser = argparse.ArgumentParser(description=__doc__, formatter_class=argparse.RawDescriptionHelpFormatter)
    parser.add_argument("--scheduler", help="the address of a cluster; else one of this machine is made")
    parser.add_argument("--workers", type=int, help="workers to begin with: 4 of this machine, 1 of a cluster")
    parser.add_argument("--program", default="hyperball", help="the program, on each worker and here")
    parser.add_argument("--parts", type=int, default=4, help="partitions: 4")
    parser.add_argument("--keep", type=int, default=2, help="supersteps between checkpoints: 2; 0 keeps none")
    parser.add_argument("--patience", type=float, default=300, help="seconds of standstill until nodes begin anew: 300")
    parser.add_argument("--progress", action="store_true", help="tells each superstep")
    parser.add_argument("input", help="a file: what hyperball run reads")
    parser.add_argument("words", nargs="...", help="the options of the job, as of hyperball node")
    asked = parser.parse_args()
    if asked.parts < 1:
        raise Refused("parts is not from 1 to 64")
    if not shutil.which(asked.program):
        raise Refused(f"{asked.program}: no such program")
    return asked


def cluster_of(asked):
    """The cluster that is asked for, to be used behind `with`."""
    if asked.scheduler:
        return nullcontext(asked.scheduler)
    return LocalCluster(asked.workers or 4, threads_per_worker=1, memory_limit=None, dashboard_address=":0",
                        silence_logs=logging.CRITICAL)


def main():
    begun = time.monotonic()
    logging.disable()  # Dask's own words on what is lost
    signal.signal(signal.SIGTERM, lambda *_: sys.exit(1))  # nodes are ended first
    try:
        asked = read_command_line()
        job = read_job(asked.input, "--counted" in asked.words)
        with cluster_of(asked) as cluster, Client(cluster) as client:
            client.wait_for_workers(asked.workers or 1)
            run = Run(Workers(client, asked.patience), asked, job)
            try:
                status = run.drive()
            finally:
                run.workers.stop()
            print(f"cluster: end {run.at[0]}, {time.monotonic() - begun:.1f} s, "
                  f"{run.started - asked.parts} nodes begun again", file=sys.stderr)
    except (Refused, OSError) as error:
        sys.exit(f"cluster: {error}")
    sys.exit(status)


if __name__ == "__main__":
    main()
