"""What a worker does for a run: `start`, `hear`, `give`, `hold` and `fetch` are tasks of Dask, `stop` is the end.

A worker has the nodes that live on it, the batches that these made since the last checkpoint, and checkpoints of nodes
of other workers.
"""
from distributed import get_worker
from node import Gone, Node


class Share:
    """What this worker has of a run."""

    def __init__(self):
        self.begun = {}  # the nodes that were started here, by partition
        self.nodes = {}  # those of them that have read the job and made their first batches
        self.kept = {}  # batches by superstep, source and target; checkpoints by superstep and partition


def share_of(run):
    """What this worker has of a run."""
    # (kept at the worker: a module is loaded anew where another driver sends it)
    return vars(get_worker()).setdefault("hyperball", {}).setdefault(run, Share())


def node_of(run, part):
    """The node of a partition, if it is here."""
    if part not in share_of(run).nodes:
        raise Gone(part)
    return share_of(run).nodes[part]


def make_batches(run, node, parts):
    """Keeps here what a node has for the others at its superstep."""
    for target in set(range(parts)) - {node.part}:
        superstep, batch = node.send(target)
        share_of(run).kept[superstep, node.part, target] = batch


def start(run, part, parts, program, words, job, checkpoint):
    """Starts a node from a checkpoint, or at superstep 0, in place of the one that was here. The superstep."""
    share = share_of(run)
    share.nodes.pop(part, None)
    if part in share.begun:
        share.begun.pop(part).kill()
    node = share.begun[part] = Node(program, part, words)
    node.restart(job, checkpoint)
    make_batches(run, node, parts)
    share.nodes[part] = node
    return node.superstep


def hear(run, part, parts, oldest, *batches):
    """Tells a node the batches of its superstep, and lets go what is older than the oldest. The superstep then."""
    kept = share_of(run).kept
    for name in [name for name in list(kept) if name[0] < oldest]:
        kept.pop(name, None)
    node = node_of(run, part)
    for batch in batches:
        node.deliver(batch)
    if node.close():
        make_batches(run, node, parts)
    return node.superstep


def give(run, part):
    """A checkpoint of a node."""
    return node_of(run, part).keep()


def hold(run, part, superstep, checkpoint):
    """Keeps a checkpoint of a node here."""
    share_of(run).kept[superstep, part] = checkpoint


def fetch(run, part, superstep, *target):
    """What is kept here of a partition and a superstep: a batch to a target, or a checkpoint."""
    try:
        return share_of(run).kept[(superstep, part, *target)]
    except KeyError:
        raise Gone(part) from None


def stop(run):
    """Ends all that is here of a run."""
    for node in list(share_of(run).begun.values()):
        node.kill()
    get_worker().hyperball.pop(run)
