"""The program's commands for an engine, `hyperball node` and `hyperball gather`: starts them, and speaks with them.

docs/FORMATS.md has the protocol. Nothing here knows of Dask.
"""
import re
import subprocess
import tempfile
from contextlib import suppress
from threading import Lock


class Gone(Exception):
    """The nodes of these partitions have to begin again; where none is named, a worker is gone."""


class Refused(Exception):
    """The program does not do what it is asked, and would not on another worker."""


class Node:
    """The process of a partition's node, and the superstep that it has reached."""

    def __init__(self, program, part, words):
        self.part, self.superstep = part, None
        self.lock = Lock()  # nothing comes between a command and its answer
        # (a file, as nobody would empty a pipe: with --progress a node tells a line a superstep there)
        self.faults = tempfile.TemporaryFile()
        pipes = {"stdin": subprocess.PIPE, "stdout": subprocess.PIPE, "stderr": self.faults}
        try:
            self.process = subprocess.Popen([program, "node", "--part", str(part), *words], **pipes)
        except OSError as error:
            raise Refused(f"{program}: {error.strerror}") from error

    def restart(self, job, checkpoint):
        """Tells the job, and goes to a checkpoint; where that is empty, to superstep 0."""
        words, _ = self.ask(["restarted"], job, b"restart %d\n" % len(checkpoint), checkpoint)
        self.superstep = int(words[1])

    def send(self, target):
        """The superstep of the node, and its batch to another partition."""
        words, batch = self.ask(["sent"], b"send %d\n" % target)
        return int(words[1]), batch

    def deliver(self, batch):
        """Tells the node a batch. It may come late or twice: then it changes nothing."""
        self.ask(["new", "known", "old", "too-early"], b"deliver %d\n" % len(batch), batch)

    def close(self):
        """Whether the node goes on to the next superstep: not where a batch is missing, or the run has ended."""
        words, _ = self.ask(["closed", "waiting", "finished"], b"close\n")
        if words[0] == "closed":
            self.superstep = int(words[1])
        return words[0] == "closed"

    def keep(self):
        """A checkpoint."""
        return self.ask(["kept"], b"keep\n")[1]

    def kill(self):
        """Ends the process, whatever it does."""
        self.process.kill()

    def ask(self, wanted, *told):
        """The words of an answer, the first of which is a wanted one, and the bytes behind them."""
        with self.lock:
            with suppress(BrokenPipeError):  # it has ended: no answer is found below
                for text in told:
                    self.process.stdin.write(text)
                self.process.stdin.flush()
            words = self.process.stdout.readline().decode().split()
            if words and words[0] not in wanted:
                raise Refused(f"partition {self.part}: {' '.join(words)}")
            size = int(words[-1]) if words and words[0] in ("sent", "kept") else 0
            body = self.process.stdout.read(size)
            if not words or len(body) < size:
                self.fail()
            return words, body

    def fail(self):
        """Raises why the process has ended: by a signal, or by a fault, its last line."""
        if self.process.wait() < 0:
            raise Gone(self.part)
        self.faults.seek(0)
        raise Refused(self.faults.read().decode().strip().rpartition("\n")[2])


def read_job(name, counted):
    """What is told before the first command: the edge list, with counted the list of counted vertices, and a mark."""
    with open(name, "rb") as file:
        text = file.read()
    if counted and not re.search(rb"^%%\r?$", text, re.MULTILINE):
        raise Refused("no line %% before the list")  # a node would wait for one
    return text + (b"\n%%\n" if text and not text.endswith(b"\n") else b"%%\n")


def gather(program, words, job, checkpoints):
    """Writes the report of a run that has ended, by the checkpoints of all nodes. The status of `hyperball gather`."""
    with tempfile.TemporaryFile() as file:
        file.write(job)
        for checkpoint in checkpoints:
            file.write(b"part %d\n" % len(checkpoint) + checkpoint)
        file.seek(0)
        return subprocess.run([program, "gather", *words], stdin=file).returncode
