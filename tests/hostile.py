#!/usr/bin/env python3
"""Makes trouble for the built program: damaged inputs, refused memory, streams that fail, workers that are lost.

Usage: tests/hostile.py [INPUTS [SECONDS [SEED]]]   (1000 inputs of each kind, for at most 600 seconds each, seed 0)
       tests/hostile.py refused   (refused memory, failing streams and lost workers alone, as the gate has it)
       tests/hostile.py program   (the same without large runs, and without the tests of refused calls, which only the gate builds)

Inputs are random bytes, right ones with a few bytes changed, and scripts of random commands; a kind's inputs depend on
its name and the seed alone. Each run is a process of its own. It has to end by itself, with status 0 and nothing told
(but a hint), or with status 1, one line of fault and nothing written (but what a node has answered). Where cc is there, feed.c copies
the process before its main is called, which spares starting it anew for each input, and refuse.c stands between the
program and the C library: each allocation is refused in turn, each thread, and each read and each write fails in turn.
The tests of refused calls that the gate built are run so, too. Under limits of the address space memory runs out for
good. Prints a line for each kind; the status is 1 where a run went wrong, or a test is not there.
"""
import os
import random
import re
import resource
import struct
import subprocess
import sys
import tempfile
import time
from concurrent.futures import ThreadPoolExecutor

from tried import PROGRAM

HERE = os.path.dirname(os.path.abspath(__file__))
RUN = ["run", "--log2m", "4"]
EDGES = b"a\tb\nb\tc\n"
REPORT = open(os.path.join(HERE, "..", "examples", "two-edges.csv"), "rb").read()
REPLAY = ["replay", "--log2m", "4", "--parts", "2", "--replicas", "2"]
NODE = ["node", "--log2m", "4", "--parts", "2"]
GATHER = ["gather", "--log2m", "4", "--parts", "2"]
# What a run tells unasked of a list that is read with the wrong delimiter, or of a file that is none.
HINT = re.compile(rb"hyperball: (no line has two fields|the input is (compressed|a Matrix Market file)).*\n")
# So many runs may meet the refusal of a call that is not the same one in each run.
FEW = 6
SCRIPT = b"""# a worker that is kept, restarted and recovered
send 0.0 1
send 1.0 0
deliver 0 1.0
deliver 1 0.0
close 0.0
keep 0.0
restart 0.0
copy 0.0
recover 0.0 0
recover 0.1 0
deliver 1 0.1
close 0.1
show 0.1
"""
wrong = 0


def ran(words, data, limit=None, **more):
    """Status, output and faults of one run; a run of 60 seconds counts as one that hangs. With a limit the address space has
    so many bytes at most: from some moment on all memory is refused, and so are threads."""
    def limit_it():
        resource.setrlimit(resource.RLIMIT_AS, (limit, limit))

    how = {"env": {**os.environ, **more}, "preexec_fn": limit_it if limit else None}
    try:
        run = subprocess.run([PROGRAM, *words], input=data, capture_output=True, timeout=60, **how)
    except subprocess.TimeoutExpired:
        return "hangs", b"", b""
    return run.returncode, run.stdout, run.stderr


def is_fault(status, output, faults):
    return status == 1 and not output and faults.startswith(b"hyperball: ") and faults.endswith(b"\n") and faults.count(b"\n") == 1


def is_report(data, status, output, faults):
    faults = HINT.sub(b"", faults)
    return status == 0 and output != b"" and not faults or is_fault(status, output, faults)


def is_replay(data, status, output, faults):
    # A script that has no command left has no answer.
    return status == 0 and not faults or is_fault(status, output, faults)


def is_answered(data, status, output, faults):
    """Each command has one answer, which begins with a line that is not that of a vertex."""
    commands = data.split(b"%%\n")[-1].count(b"\n")
    answers = sum(not line.startswith(b"row ") for line in output.splitlines())
    return status == 0 and not faults and answers == commands and output.endswith(b"\n")


def count(kind, runs, bad, note=""):
    global wrong
    wrong += len(bad)
    print(f"{kind:44} {runs:8} runs {len(bad):4} wrong  {note}".rstrip(), flush=True)
    for it in bad[:5]:
        print("   ", *it, file=sys.stderr)


def is_node(data, status, output, faults):
    """What a node has answered before a fault."""
    return status == 0 and not faults or is_fault(status, b"", faults)


def lines_of(data):
    """The lines of commands, or of answers, each with the bytes that follow it. A ValueError where one is cut."""
    at = 0
    while at < len(data):
        end = data.index(b"\n", at)
        line, body = data[at:end], end + 1
        at = body + (int(line.split()[-1]) if line.startswith((b"deliver ", b"sent ", b"kept ")) else 0)
        if at > len(data):
            raise ValueError(line)
        yield line, data[body:at]


def is_obeyed(data, status, output, faults):
    """Each command has one answer, and it is whole."""
    try:
        commands, answers = (sum(1 for _ in lines_of(it)) for it in (data.partition(b"%%\n")[2], output))
    except ValueError:
        return False
    return status == 0 and not faults and answers == commands


def noise(chance, marks=b"\t\n\r#, \"%ab01"):
    """Random bytes, of which many are those that mean something."""
    return bytes(chance.choice(marks) if chance.random() < 0.6 else chance.randrange(256) for _ in range(chance.randrange(200)))


def words_of_scripts(chance):
    """Lines of words that mean something in a script, in any order, some of them commands."""
    words = ("send", "deliver", "close", "keep", "restart", "copy", "recover", "show", "0.0", "1.1", "0", "1", "2", "00", "-1", "9" * 20, "#", "")
    return "".join(" ".join(chance.choices(words, k=chance.randrange(1, 4))) + "\n" for _ in range(chance.randrange(1, 3))).encode()


def commands(chance):
    """Commands for two partitions of two replicas, of which some name what is not there."""
    def node():
        return f"{chance.choice('001112')}.{chance.choice('001112')}"

    def one():
        verb = chance.choice(("send", "send", "deliver", "deliver", "deliver", "close", "keep", "restart", "copy", "recover", "show"))
        if verb == "send":
            return f"send {node()} {chance.choice('01011012')}"
        if verb == "deliver":
            return f"deliver {chance.randrange(12)} {node()}"
        if verb == "recover":
            return f"recover {node()} {chance.randrange(4)}"
        return f"{verb} {node()}"

    return "".join(one() + "\n" for _ in range(chance.randrange(1, 60))).encode()


def sized(word, body):
    return b"%s %d\n%s" % (word, len(body), body)


def told_last(words, commands):
    """The bytes after the last answer of a node, which is one of sent or kept."""
    *_, (_, body) = lines_of(ran(words, EDGES + b"%%\n" + commands)[1])
    return body


def node_parts():
    """A batch to partition 0, commands for its node that all have a right answer, and the checkpoints of both nodes at the
    end."""
    other = [*NODE, "--part", "1"]
    batch = told_last(other, b"send 0\n")
    to_each, said = [b"", b""], [b"", b""]
    for superstep in range(4):
        for p, words in enumerate((NODE, other)):
            said[p] = told_last(words, to_each[p] + b"send %d\n" % (1 - p))
        for p in (0, 1):
            to_each[p] += sized(b"deliver", said[1 - p]) + b"close\n"
    kept = [told_last(words, to_each[p] + b"keep\n") for p, words in enumerate((NODE, other))]
    start = told_last(NODE, b"keep\n")
    commands = b"send 1\n" + to_each[0] + b"keep\n" + sized(b"restart", start) + sized(b"recover", kept[0]) + b"show\ntotals\nfigures\n"
    return batch, commands, kept


def orders(chance, batch):
    """Commands for a node, whose bodies are as long as they say, and mostly no batch of the job."""
    def one():
        verb = chance.choice(("send", "deliver", "deliver", "close"))
        if verb == "send":
            return f"send {chance.choice('0112')}\n".encode()
        if verb == "deliver":
            return sized(b"deliver", chance.choice((batch, damaged(chance, batch), noise(chance)))[:len(batch)])
        return b"close\n"

    return EDGES + b"%%\n" + b"".join(one() for _ in range(chance.randrange(1, 60)))


def damaged(chance, right):
    """Right bytes with one to four changed, left out or put in."""
    data = bytearray(right)
    for _ in range(chance.randrange(1, 5)):
        place = chance.randrange(len(data) + 1)
        data[place:place + chance.randrange(2)] = bytes([chance.randrange(256)] * chance.randrange(2))
    return bytes(data)


class Fed:
    """Runs of the same words, by copies of one process (feed.c)."""

    def __init__(self, words, feed):
        more = {**os.environ, "LD_PRELOAD": feed, "FEED": "60"}
        self.process = subprocess.Popen([PROGRAM, *words], stdin=subprocess.PIPE, stdout=subprocess.PIPE, env=more)

    def __call__(self, data):
        self.process.stdin.write(struct.pack("<I", len(data)) + data)
        self.process.stdin.flush()
        status, late = self.process.stdout.read(2)
        return "ended by a signal, or hangs" if late else status, self.text(), self.text()

    def text(self):
        return self.process.stdout.read(struct.unpack("<I", self.process.stdout.read(4))[0])

    def end(self):
        self.process.stdin.close()
        self.process.wait()


def inputs(kind, words, make, many, seconds, holds, seed, feed):
    chance, bad, faults, runs, started = random.Random(f"{kind} {seed}"), [], 0, 0, time.monotonic()
    fed = Fed(words, feed) if feed else None
    while runs < many and time.monotonic() - started < seconds:
        data = make(chance)
        answer = fed(data) if fed else ran(words, data)
        runs += 1
        faults += answer[0] == 1
        if not holds(data, *answer):
            bad.append((words, data, answer))
    if fed:
        fed.end()
    count(kind, runs, bad, f"{faults} refused, {time.monotonic() - started:.0f} s")


def all_inputs(many, seconds, seed, feed):
    edges = b"# c\r\n" + EDGES + b"d\n" + EDGES
    lists = EDGES + b"%%\r\na\n# c\nc\n"
    scripts = EDGES + b"%%\n" + SCRIPT
    counted = lists + b"%%\n" + SCRIPT
    batch, asked, kept = node_parts()
    nodes = EDGES + b"%%\n" + asked
    gathered = EDGES + b"%%\n" + b"".join(sized(b"part", it) for it in kept)
    for kind, words, make, holds in (
        ("edge lists of random bytes", RUN, noise, is_report),
        ("edge lists with bytes changed", RUN, lambda chance: damaged(chance, edges), is_report),
        ("counted lists of random bytes", [*RUN, "--counted"], lambda chance: EDGES + b"%%\n" + noise(chance), is_report),
        ("counted lists with bytes changed", [*RUN, "--counted"], lambda chance: damaged(chance, lists), is_report),
        ("scripts of random bytes", REPLAY, lambda chance: EDGES + b"%%\n" + noise(chance, b"\n #%.01senddeliverclosekeep"), is_replay),
        ("scripts of random words", REPLAY, lambda chance: EDGES + b"%%\n" + words_of_scripts(chance), is_replay),
        ("scripts of random commands", REPLAY, lambda chance: EDGES + b"%%\n" + commands(chance), is_answered),
        ("scripts with bytes changed", REPLAY, lambda chance: damaged(chance, scripts), is_replay),
        ("scripts and lists with bytes changed", [*REPLAY, "--counted"], lambda chance: damaged(chance, counted), is_replay),
        ("commands of random bytes", NODE, lambda chance: EDGES + b"%%\n" + noise(chance, b"\n 0123senddeliverclosekeeprestart"), is_node),
        ("commands with right and wrong batches", NODE, lambda chance: orders(chance, batch), is_obeyed),
        ("commands and bodies with bytes changed", NODE, lambda chance: damaged(chance, nodes), is_node),
        ("checkpoints of all with bytes changed", GATHER, lambda chance: damaged(chance, gathered), is_report),
    ):
        inputs(kind, words, make, many, seconds, holds, seed, feed)


def without(words, data, shim, variable, call):
    """The answer of a run in which a call of a kind is refused, and whether there was such a call."""
    with tempfile.TemporaryDirectory() as folder:
        told = os.path.join(folder, "told")
        answer = ran(words, data, LD_PRELOAD=shim, REFUSE_TELL=told, **{variable: str(call)})
        return answer, os.path.exists(told)


def each_call(kind, words, data, shim, variable, wanted, first=1, missed=None):
    """Call 1, 2, .. of a kind is refused, or from a later one on, until a run in which there is no such call: then all is
    as it should be. If it is said how many calls are missed, at most so many runs end in another way than then: which
    thread comes first differs from run to run, and so does whether a missed one is met."""
    bad, call, others, plain = [], first, 0, ran(words, data)
    while len(bad) < 5:
        answer, reached = without(words, data, shim, variable, call)
        if not reached:
            break
        if not wanted(*answer):
            bad.append((words, variable, call, answer))
        others += answer != plain
        call += 1
    if answer != plain:
        bad.append((words, variable, "none", answer))
    if missed is not None and others > missed:
        bad.append((words, variable, f"{others} runs ended in another way, and not at most {missed}"))
    count(kind, call - first + 1, bad)


def how_many(words, data, shim, variable):
    """How many calls of a kind there are."""
    least, step = 0, 1 << 24
    while step:
        if without(words, data, shim, variable, least + step)[1]:
            least += step
        step //= 2
    return least


def growth_refused(shim):
    """The table of guesses, which grows after 131,072 labels, is left as it is where memory for a larger one is refused: one
    of these allocations is done without, and the report is the same; each of the others ends the run."""
    data, words = "".join(f"{v}\n" for v in range(140000)).encode(), ["run", "--log2m", "4", "--threads", "1"]
    first = 131072 + how_many(words, b"0\n", shim, "REFUSE_ALLOC")
    report, bad, spared, calls = ran(words, data)[1], [], 0, range(first, first + 150)
    for call in calls:
        answer, reached = without(words, data, shim, "REFUSE_ALLOC", call)
        spared += reached and answer == (0, report, b"")
        if not reached or answer not in [(0, report, b""), (1, b"", b"hyperball: out of memory\n")]:
            bad.append((words, call, answer[0], answer[2]))
    if not spared:
        bad.append((words, "none of these allocations was done without"))
    count("memory refused: a larger table of guesses", len(calls), bad)


def reading_refused(shim):
    """Edge lists of several pieces, which threads cut, and one with so many distinct edges that threads code its lists:
    whichever allocation is refused, the report is the same, or the run says that memory was refused and has written
    nothing; and whichever thread, but that of the only worker, the report is the same."""
    coded = "".join(f"{v}\t{w}\n" for v in range(200) for w in range(200)).encode()
    short = ["run", "--log2m", "4", "--limit", "1"]
    lists = ("cut", RUN, EDGES * 300000, REPORT), ("coded", short, coded, ran([*short, "--threads", "1"], coded)[1])
    for kind, variable, missed in ("memory", "REFUSE_ALLOC", None), ("a thread", "REFUSE_THREAD", FEW):
        for done, words, data, report in lists:
            each_call(f"{kind} refused: a list {done} by threads", [*words, "--threads", "4"], data, shim, variable,
                      lambda *answer, report=report: answer in [(1, b"", b"hyperball: out of memory\n"), (0, report, b"")],
                      missed=missed)


def refused_in_threads(shim):
    """Supersteps in which so many rows change that threads share them (from 8 MiB of registers, or 16 MiB of rows, on):
    however many threads are asked for the report is the same, and so it is whichever thread is not to be had, but that of
    the only worker. Whichever allocation is refused, from the last hundred before the supersteps on (index and first
    tables), it is the same too, or the run says that memory was refused and has written nothing."""
    chance = random.Random("threads")
    words = ["run", "--log2m", "10", "--limit", "2"]
    four = [*words, "--threads", "4"]
    kept = ["--restart", "0.0@4096"]  # an order that never falls due: each superstep keeps a snapshot

    def edges(vertices):
        return "".join(f"{chance.randrange(vertices)}\t{chance.randrange(vertices)}\n" for _ in range(100000)).encode()

    def holds(report):
        return lambda *answer: answer in [(1, b"", b"hyperball: out of memory\n"), (0, report, b"")]

    data = edges(40000)
    report = ran([*words, "--threads", "1"], data)[1]
    ways = (["--threads", "2"], ["--threads", "3"], ["--threads", "8"], ["--threads", "4", *kept],
            ["--threads", "4", "--parts", "2"], ["--threads", "8", "--parts", "2", "--replicas", "2"])
    bad = [(it,) for it in ways if ran([*words, *it], data) != (0, report, b"")]
    count("large supersteps, other numbers of threads", len(ways), bad)
    one, two = (how_many(["run", "--log2m", "10", "--limit", it, "--threads", "4"], data, shim, "REFUSE_THREAD") for it in "12")
    count("threads start in each large superstep", 2, [] if one < two else [(one, two)])
    each_call("a thread refused: large supersteps", four, data, shim, "REFUSE_THREAD", holds(report), missed=FEW)
    data = edges(20000)
    report = ran([*words, "--threads", "1"], data)[1]
    begun = how_many([*four, "--lose", "0.0@0"], data, shim, "REFUSE_ALLOC")
    each_call("memory refused: large supersteps", four, data, shim, "REFUSE_ALLOC", holds(report), first=max(1, begun - 100))
    each_call("memory refused: large supersteps, with snapshots", [*four, *kept], data, shim, "REFUSE_ALLOC", holds(report),
              first=max(1, begun - 100))


def refusals(shim):
    def memory(report):
        # Some allocations can be done without, and of several workers of a partition another one may do the work: then
        # the report is the same. Nobody waits for a worker that has ended.
        def holds(status, output, faults):
            return (status, output, faults) in [(1, b"", b"hyperball: out of memory\n"), (0, report, b"")]
        return holds

    def unwritten(whole):
        def holds(status, output, faults):
            return status == 1 and faults == b"hyperball: the output cannot be written\n" and whole.startswith(output) and output != whole
        return holds

    def starved(answers):
        # A replay writes as it goes on: a beginning of its answers may stand, up to the end of a line.
        def holds(status, output, faults):
            cut = status == 1 and faults == b"hyperball: out of memory\n" and answers.startswith(output) and output[-1:] in (b"", b"\n")
            return cut or (status, output, faults) == (0, answers, b"")
        return holds

    def cut_short(answers):
        # A node writes as it goes on: a beginning of its answers is there.
        def holds(status, output, faults):
            cut = status == 1 and faults == b"hyperball: out of memory\n" and answers.startswith(output)
            return cut or (status, output, faults) == (0, answers, b"")
        return holds

    def unread(fault, answers=b""):
        # (a node has answered the commands that it has read)
        return lambda status, output, faults: status == 1 and faults == fault and answers.startswith(output)

    def told(words):
        # What clap tells is told whole, or not at all.
        plain = ran(words, EDGES)
        return lambda *answer: answer in [plain, (1, b"", b"hyperball: out of memory\n")]

    for words in (["--help"], ["run", "--help"], ["node", "--help"], ["gather", "--help"], ["--version"], ["replays"], ["run", "--log2m", "x"], ["run", "--lose", "0.0@"]):
        each_call(f"memory refused: {' '.join(words)}", words, EDGES, shim, "REFUSE_ALLOC", told(words))
    each_call("memory refused: one partition", RUN, EDGES, shim, "REFUSE_ALLOC", memory(REPORT))
    counted = ran([*RUN, "--counted"], EDGES + b"%%\na\n")[1]
    each_call("memory refused: counted vertices", [*RUN, "--counted"], EDGES + b"%%\na\n", shim, "REFUSE_ALLOC", memory(counted))
    each_call("memory refused: four workers", [*RUN, "--parts", "2", "--replicas", "2"], EDGES, shim, "REFUSE_ALLOC", memory(REPORT))
    each_call("a thread refused: two workers", [*RUN, "--parts", "2"], EDGES, shim, "REFUSE_THREAD", memory(REPORT))
    each_call("a thread refused: four workers", [*RUN, "--parts", "2", "--replicas", "2"], EDGES, shim, "REFUSE_THREAD", memory(REPORT))
    each_call("reads that fail", RUN, EDGES, shim, "REFUSE_READ", unread(b"hyperball: the edge list cannot be read\n"))
    each_call("reads that fail: counted vertices", [*RUN, "--counted"], EDGES + b"%%\na\n", shim, "REFUSE_READ", unread(b"hyperball: the input cannot be read\n"))
    each_call("writes that fail", RUN, EDGES, shim, "REFUSE_WRITE", unwritten(REPORT))
    scripts = EDGES + b"%%\n" + SCRIPT
    answers = ran(REPLAY, scripts)[1]
    each_call("memory refused: a replay", REPLAY, scripts, shim, "REFUSE_ALLOC", starved(answers))
    each_call("reads that fail: a replay", REPLAY, scripts, shim, "REFUSE_READ", unread(b"hyperball: the input cannot be read\n"))
    each_call("writes that fail: a replay", REPLAY, scripts, shim, "REFUSE_WRITE", unwritten(answers))
    _, asked, kept = node_parts()
    asked = EDGES + b"%%\n" + asked
    obeyed = ran(NODE, asked)[1]
    gathered = EDGES + b"%%\n" + b"".join(sized(b"part", it) for it in kept)
    each_call("memory refused: a node", NODE, asked, shim, "REFUSE_ALLOC", cut_short(obeyed))
    each_call("memory refused: a gathering", GATHER, gathered, shim, "REFUSE_ALLOC", starved(REPORT))
    each_call("reads that fail: a node", NODE, asked, shim, "REFUSE_READ", unread(b"hyperball: the input cannot be read\n", obeyed))
    each_call("reads that fail: a gathering", GATHER, gathered, shim, "REFUSE_READ", unread(b"hyperball: the input cannot be read\n"))
    each_call("writes that fail: a node", NODE, asked, shim, "REFUSE_WRITE", unwritten(obeyed))
    each_call("writes that fail: a gathering", GATHER, gathered, shim, "REFUSE_WRITE", unwritten(REPORT))
    for words, data, wanted in ((RUN, EDGES, REPORT), (REPLAY, scripts, answers), (NODE, asked, obeyed), (GATHER, gathered, REPORT)):
        answer = ran(words, data, LD_PRELOAD=shim, SHORT_IO="1")
        count(f"a byte a call: {words[0]}", 1, [] if answer == (0, wanted, b"") else [(answer,)])
    for data in (b"a,b\r\nb,c", b"\x1f\x8b,", b"%%MatrixMarket\n"):
        answer, plain = ran(RUN, data, LD_PRELOAD=shim, SHORT_IO="1"), ran(RUN, data)
        count("a byte a call: a hint", 1, [] if answer == plain and HINT.fullmatch(plain[2]) else [(answer,)])


REFUSED_CALLS = (
    ("base_tests", "of_gapcode::refusals::calls_where_memory_is_refused"),
    ("base_tests", "of_batches::refusals::calls_where_memory_is_refused"),
    ("edgelist", "tests::refusals::calls_where_memory_is_refused"),
    ("job", "tests::refusals::calls_where_memory_is_refused"),
    ("replica", "tests::refusals::calls_where_memory_is_refused"),
    ("replica", "tests::threads::indexes_whose_memory_is_refused"),
    ("replica", "tests::teams::a_ring_where_memory_is_refused"),
    ("state_tests", "of_checkpoint::refusals::calls_where_memory_is_refused"),
    ("state_tests", "of_checkpoint::refusals::writing_asks_for_no_memory"),
    ("state_tests", "of_report::refusals::calls_where_memory_is_refused"),
    ("state_tests", "of_board::calls::calls_where_memory_is_refused"),
    ("state_tests", "of_board::opened::boards_whose_memory_is_refused"),
    ("world", "tests::refusals::events_whose_memory_is_refused"),
    ("world", "tests::refusals::replays_whose_memory_is_refused"),
    ("workers", "tests::refusals::nodes_whose_memory_is_refused"),
    ("workers", "tests::refusals::a_run_whose_memory_is_refused"),
    ("hyperball", "tests::refusals::words_whose_memory_is_refused"),
)


REFUSED_THREADS = (("replica", "tests::teams::a_ring_where_memory_is_refused"),)


def test_ran(crate, test, **more):
    """Status, output and faults of a test as the gate built it. There has to be one of this very name."""
    tests = os.path.join(HERE, "..", "crates", crate, "out", crate + "_tests")
    try:
        run = subprocess.run([tests, test], capture_output=True, timeout=60, env={**os.environ, **more})
    except FileNotFoundError:
        return "not there", b"", b""
    except subprocess.TimeoutExpired:
        return "hangs", b"", b""
    return run.returncode, run.stdout, run.stderr


def refused_calls(shim):
    """The tests of calls that may be refused: each passes, whichever allocation is refused, or whichever thread."""
    for crate, test in REFUSED_CALLS:
        in_turn(shim, crate, test, "memory", "REFUSE_ALLOC")
    for crate, test in REFUSED_THREADS:
        in_turn(shim, crate, test, "a thread", "REFUSE_THREAD")


def in_turn(shim, crate, test, what, kind):
    plain, bad, call = test_ran(crate, test), [], 0
    if plain != (0, b"\ntest result: ok\n", b""):
        bad.append((crate, test, "nothing refused", *plain))
    with tempfile.TemporaryDirectory() as folder:
        told = os.path.join(folder, "told")
        while len(bad) < 5:
            call += 1
            answer = test_ran(crate, test, LD_PRELOAD=shim, REFUSE_TELL=told, **{kind: str(call)})
            if answer != plain:
                bad.append((crate, test, call, *answer))
            if not os.path.exists(told):
                break
            os.remove(told)
    count(f"{what} refused: {crate}, {test.removeprefix('tests::')}", call, bad)


def lost_workers():
    four = [*RUN, "--parts", "2", "--replicas", "2"]
    bad, runs = [], 0
    for lose in [f"{p}.{k}@{s}" for p in (0, 1) for k in (0, 1) for s in range(4)] + ["0.0@4,0.1@4"]:
        answer = ran([*four, "--lose", lose], EDGES)
        runs += 1
        if answer != (0, REPORT, b""):
            bad.append((lose, answer))
    # The workers of the other partition do not wait out their patience: nobody waits for a partition that is lost.
    both = [(p, s) for p in (0, 1) for s in range(4)]
    with ThreadPoolExecutor(len(both)) as pool:
        answers = pool.map(lambda it: ran([*four, "--lose", f"{it[0]}.0@{it[1]},{it[0]}.1@{it[1]}"], EDGES), both)
    for (p, s), answer in zip(both, answers):
        runs += 1
        if answer != (1, b"", f"hyperball: every replica of partition {p} was lost\n".encode()):
            bad.append((p, s, answer))
    for lose in ("0.0@", "00.0@1", "0.0@1,"):
        answer = ran([*four, "--lose", lose], EDGES)
        runs += 1
        if answer != (2, b"", b"hyperball: an order is P.K@S, with commas between orders\n"):
            bad.append((lose, answer))
    count("lost workers", runs, bad)


def limits(many=60):
    """Too little memory, and then enough of it; the least limit is one under which the C library is loaded."""
    chance = random.Random("limits")
    edges = "".join(f"{chance.randrange(20000)}\t{chance.randrange(20000)}\n" for _ in range(60000)).encode()
    steps = (f"send 0.0 1\nsend 1.0 0\ndeliver {2 * s} 1.0\ndeliver {2 * s + 1} 0.0\nclose 0.0\nclose 1.0\ncopy 0.0\nkeep 1.0\n" for s in range(6))
    run, replay = ["run", "--log2m", "6"], ["replay", "--log2m", "6", "--parts", "2"]
    for kind, words, data, most in (
        ("too little memory: one partition", run, edges, 60e6),
        ("too little memory: four workers", [*run, "--parts", "2", "--replicas", "2"], edges, 400e6),
        ("too little memory: a replay", replay, edges + b"%%\n" + "".join(steps).encode(), 120e6),
    ):
        whole, bad, cut = ran(words, data), [], 0
        for i in range(many):
            answer = ran(words, data, limit=int(6e6 + (most - 6e6) * i / many))
            status, output, faults = answer
            front = whole[1].startswith(output) and output[-1:] in (b"", b"\n") if words == replay else output == b""
            refused = status == 1 and faults == b"hyperball: out of memory\n" and front
            cut += refused
            if whole[0] != 0 or not refused and answer != whole:
                bad.append((words, i, status, faults))
        count(kind, many, bad, f"{cut} refused")


def built(folder, name):
    """The library of one of the C files here; None where it cannot be built."""
    library = os.path.join(folder, name + ".so")
    try:
        subprocess.run(["cc", "-O2", "-shared", "-fPIC", "-o", library, os.path.join(HERE, name + ".c"), "-ldl"], check=True)
    except (OSError, subprocess.CalledProcessError):
        return None
    return library


def main():
    words = sys.argv[1:]
    with tempfile.TemporaryDirectory() as folder:
        shim = built(folder, "refuse")
        if words not in (["refused"], ["program"]):
            many, seconds, seed = words + ["1000", "600", "0"][len(words):]
            all_inputs(int(many), float(seconds), int(seed), built(folder, "feed"))
            limits()
        lost_workers()
        if shim:
            if words != ["program"]:
                refused_calls(shim)
            refusals(shim)
            if words != ["program"]:
                reading_refused(shim)
                growth_refused(shim)
                refused_in_threads(shim)
        else:
            print("no cc: refused memory and failing streams are not tried")
    return 1 if wrong else 0


if __name__ == "__main__":
    sys.exit(main())
