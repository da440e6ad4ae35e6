"""What ./hyperball starts, and what it sets for that: the scripts here start the program themselves, so that no shell is
timed, and are to measure what a user has."""
import os
import re
import subprocess
from functools import cache

TOP = os.path.join(os.path.dirname(os.path.abspath(__file__)), "..")
LAUNCHER = os.path.join(TOP, "hyperball")


@cache
def program():
    """The program of these sources: the one that was built here, or else the released one. It is built where neither is."""
    subprocess.run([LAUNCHER, "--version"], stdout=subprocess.DEVNULL, check=True)
    which = subprocess.run([os.path.join(TOP, "build"), "which"], stdout=subprocess.PIPE, check=True, text=True)
    return which.stdout.strip()


def environment(one_heap=False):
    """The environment, with what the launcher sets where it is not set already (hyperball.env). One heap for all threads is
    what it asks for if a run has one partition of one replica."""
    usual = {}
    with open(os.path.join(TOP, "hyperball.env"), encoding="utf-8") as lines:
        for line in lines:
            found = re.fullmatch(r"(alone )?(\w+)=(.*)\n", line)
            if found and (one_heap or not found[1]):
                usual.setdefault(found[2], found[3])
    return {**usual, **os.environ}
