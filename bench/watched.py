"""A run whose lines of --progress are timed as they come."""
import hashlib
import os
import signal
import subprocess
import sys
import time
from dataclasses import dataclass

BEGIN = "hyperball: the supersteps begin"
SUPERSTEP = "hyperball: superstep "
READ = " are read"


@dataclass
class Watched:
    status: int
    whole: float  # seconds by the clock
    processor: float  # seconds of all threads, and of the system for them
    peak: float  # MiB
    told: list  # seconds, line and peak so far of each line of standard error

    def lines(self):
        return [line for _, line, _ in self.told]

    def read(self):
        """The line that tells what was read, with its seconds and the peak so far."""
        return next((it for it in self.told if it[1].endswith(READ)), None)

    def begun(self):
        """When the supersteps began."""
        return next((at for at, line, _ in self.told if line == BEGIN), None)

    def ends(self):
        """When each superstep ended."""
        return [at for at, line, _ in self.told if line.startswith(SUPERSTEP)]

    def supersteps(self):
        """Seconds from their begin to the last one's end, or None where they are not told."""
        return self.ends()[-1] - self.begun() if self.ends() and self.begun() is not None else None


def high_water(process):
    """The peak so far, in MiB, where the system tells it."""
    try:
        with open(f"/proc/{process}/status", encoding="ascii") as fields:
            return next(int(line.split()[1]) / 1024 for line in fields if line.startswith("VmHWM:"))
    except (OSError, StopIteration):
        return 0.0


def watched(words, path, report, environment):
    """Runs a program on the edge list at the path; the report goes to the file."""
    told = []
    with open(path, "rb") as edges:
        started = time.monotonic()
        child = subprocess.Popen(words, stdin=edges, stdout=report, stderr=subprocess.PIPE, env=environment)
        try:
            for line in child.stderr:
                at, text = time.monotonic() - started, line.decode().rstrip("\n")
                told.append((at, text, high_water(child.pid) if text.endswith(READ) else 0.0))
        except BaseException:
            child.kill()
            raise
        _, status, usage = os.wait4(child.pid, 0)
        whole = time.monotonic() - started
    child.returncode = os.waitstatus_to_exitcode(status)
    child.stderr.close()
    return Watched(child.returncode, whole, usage.ru_utime + usage.ru_stime, usage.ru_maxrss / 1024, told)


def end_in_order():
    """Ends by an exception where the process is asked to end, so that the program and the files do not stay behind."""
    signal.signal(signal.SIGTERM, lambda *_: sys.exit(1))


def digest_of(file):
    """The SHA-256 of all that was written to the file."""
    file.seek(0)
    digest = hashlib.sha256()
    while piece := file.read(1 << 20):
        digest.update(piece)
    return digest.hexdigest()
