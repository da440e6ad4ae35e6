#!/usr/bin/env python3
"""Measures what a waiting worker costs: of two workers of a run one is stopped for some seconds, and the other waits.

Usage: bench/asleep.py [SECONDS [RECORDS]]   (10 seconds, 300000 records)

The run has two partitions. Once a superstep is told, one of its threads is held by ptrace; after a second, in which the
other comes to wait, the processor time of all other threads is read, and again after the seconds. Then the thread is let
go, and the report has to be that of a run with one partition. Prints the share of a core.
"""
import ctypes
import os
import subprocess
import sys
import tempfile
import time

from launched import program

HERE = os.path.dirname(os.path.abspath(__file__))
PROGRAM = os.environ.get("HYPERBALL") or program()
SEIZE, INTERRUPT, DETACH, ALL = 0x4206, 0x4207, 17, 0x40000000
libc = ctypes.CDLL(None, use_errno=True)
libc.ptrace.argtypes = [ctypes.c_long, ctypes.c_long, ctypes.c_void_p, ctypes.c_void_p]


def ptrace(request, thread):
    if libc.ptrace(request, thread, None, None) != 0:
        sys.exit(f"ptrace: {os.strerror(ctypes.get_errno())}")


def threads(process):
    return [int(name) for name in os.listdir(f"/proc/{process}/task")]


def seconds_of(process, thread):
    """Processor seconds of a thread so far."""
    with open(f"/proc/{process}/task/{thread}/stat") as text:
        fields = text.read().rsplit(")", 1)[1].split()
    return (int(fields[11]) + int(fields[12])) / os.sysconf("SC_CLK_TCK")


def main():
    wait = float(sys.argv[1]) if len(sys.argv) > 1 else 10
    records = sys.argv[2] if len(sys.argv) > 2 else "300000"
    with tempfile.TemporaryFile() as edges, tempfile.TemporaryFile() as report:
        subprocess.run([sys.executable, os.path.join(HERE, "generate.py"), "web", records], stdout=edges, check=True)
        edges.seek(0)
        run = subprocess.Popen([PROGRAM, "run", "--parts", "2", "--progress"], stdin=edges, stdout=report, stderr=subprocess.PIPE)
        for line in run.stderr:
            if b"superstep 2," in line:
                break
        held = max(threads(run.pid), key=lambda thread: seconds_of(run.pid, thread) if thread != run.pid else -1)
        ptrace(SEIZE, held)
        ptrace(INTERRUPT, held)
        os.waitpid(held, ALL)
        time.sleep(1)
        others = [thread for thread in threads(run.pid) if thread != held]
        before, started = sum(seconds_of(run.pid, thread) for thread in others), time.monotonic()
        time.sleep(wait)
        after, ended = sum(seconds_of(run.pid, thread) for thread in others), time.monotonic()
        ptrace(DETACH, held)
        run.stderr.read()
        status = run.wait()
        edges.seek(0)
        alone = subprocess.run([PROGRAM, "run"], stdin=edges, capture_output=True)
        report.seek(0)
        same = report.read() == alone.stdout
    print(f"{len(others)} other threads, {(after - before) / (ended - started):.4f} of a core, status {status}, report {'the same' if same else 'ANOTHER'}")
    return 0 if same and status == 0 else 1


if __name__ == "__main__":
    sys.exit(main())
