"""The workers of a cluster, as the driver sees them: asks them for tasks, and waits for these, but not for ever."""
import sys
import time
from collections import Counter
from contextlib import suppress
from random import random
from threading import Thread
from uuid import uuid4

import node
import tasks
from distributed import CancelledError, KilledWorker, TimeoutError, wait
from node import Gone

# what is raised where something is lost or takes too long: the driver asks again
LOST = Gone, KilledWorker, CancelledError, TimeoutError, OSError


class Workers:
    """The workers of a cluster, and which of them the node of each partition is on."""

    def __init__(self, client, patience):
        self.client, self.patience = client, patience
        self.run = uuid4().hex  # the name of what the workers have of this run
        self.unsent = [node.__file__, tasks.__file__]  # in this order: the second imports the first
        self.place = {}  # of each partition the worker that its node is on
        self.slow = Counter()  # how often nothing was done while a worker was waited for

    def prepare(self):
        """Waits for a worker. Sends the files of the tasks, once: Dask gives them to workers that come later too."""
        self.client.wait_for_workers(1, timeout=self.patience)
        while self.unsent:
            self.client.upload_file(self.unsent[0])
            self.unsent.pop(0)

    def alive(self):
        """The addresses of the workers that are there."""
        return set(self.client.scheduler_info()["workers"])

    def chosen(self, workers):
        """Workers in a random order, those at which nothing stood still before others."""
        return sorted(workers, key=lambda worker: (self.slow[worker], random()))

    def deal(self, parts):
        """Where all nodes are if some begin again: not where nothing was done, rather where they were, or few are."""
        alive, place = self.alive(), dict(self.place)
        for part in parts:
            before, nodes = place.pop(part, None), Counter(place.values())
            place[part] = min(alive, key=lambda worker: (self.slow[worker], worker != before, nodes[worker]))
        return place

    def bring(self, text, workers):
        """Bytes that each of some workers has, as a word of a task."""
        return self.client.scatter(text, workers=workers, broadcast=True, hash=False)

    def ask(self, worker, function, *words):
        """A task for a worker: Dask's future of it."""
        future = self.client.submit(function, self.run, *words, workers=[worker], pure=False)
        future.worker = worker
        return future

    def wait_for(self, futures):
        """Waits until all are done. Gone, where a worker is lost meanwhile, or none is done for too long."""
        left, since = futures, time.monotonic()
        while left:
            with suppress(TimeoutError, CancelledError):
                wait(left, timeout=1, return_when="FIRST_COMPLETED")
            for future in left:
                if future.status in ("error", "cancelled"):
                    future.result(self.patience)  # raises what it failed for
            before, left = left, [future for future in left if future.status != "finished"]
            workers = {future.worker for future in left}
            if len(left) < len(before):
                since = time.monotonic()
            elif not workers | set(self.place.values()) <= self.alive():
                raise Gone
            elif time.monotonic() - since > self.patience:
                self.lose_patience(workers)

    def lose_patience(self, workers):
        """The nodes of workers have to begin again: nothing was done while these workers were waited for."""
        print(f"cluster: nothing was done for {self.patience} s", file=sys.stderr)
        self.patience *= 2  # it may have been too much for that time
        self.slow.update(workers)
        raise Gone(*[part for part in self.place if self.place[part] in workers])

    def values(self, futures, seconds=1):
        """What tasks give."""
        self.wait_for(futures)
        try:
            return [future.result(seconds) for future in futures]
        except TimeoutError:  # it is much, or lost since
            if seconds > self.patience:
                raise
            return self.values(futures, 2 * seconds)

    def stop(self):
        """Ends what is on the workers, as far as they answer within ten seconds."""
        def ask_all():
            with suppress(OSError):  # the driver has ended meanwhile
                self.client.run(tasks.stop, self.run, on_error="ignore")

        asking = Thread(target=ask_all, daemon=True)
        asking.start()
        asking.join(10)
