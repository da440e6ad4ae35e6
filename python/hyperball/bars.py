"""What counters err by on average: the part of an error bar that the spread of some seeds may not show.

Where ten vertices reach a vertex, counters of 1,024 registers agree under nearly all seeds, and their mean is still not
exact: under the other seeds two of the ten share a register, and one is lost.

A corrected estimate adds up draws. A vertex whose register is one of z empty ones of m adds m/z, and another adds nothing: 1
on average, whatever came before. So the estimate is right on average, and what its vertices add is uncorrelated. The k-th
after the first adds with the variance E(m/z) - 1, near q^k - 1 for q = m / (m - 1), and a set of n has (m - 1)(q^n - 1) - n.
That is m (e^t - t - 1) for t = n/m in large sets, the deviation of linear counting (Whang, Vander-Zanden, Taylor 1990).

A vertex at distance d adds the d-th part of its draw to harmonic centrality, and d times its draw to the sum of distances. If
all were at the same distance, both had the relative deviation of the n - 1 others. But far ones come last, and vary most: so
harmonic centrality errs by less than that, and the sum of distances by more, as distances vary.

>>> [round(deviation(members, 1024), 2) for members in (1, 2, 10, 1000)]
[0.0, 0.03, 0.21, 26.36]
"""
from __future__ import annotations

import math
from typing import Dict, Iterable, Sequence, Tuple

# Up to so many members a register, estimates are corrected.
_BOUND = 2.5


def deviation(members: float, registers: int, corrected: bool = True) -> float:
    """The standard deviation of an estimate of a set of so many members, under one seed."""
    if not corrected or members > _BOUND * registers:
        return 1.04 * members / math.sqrt(registers)
    if members <= 1:
        return 0.0
    grown = (registers - 1) * math.expm1(members * math.log1p(1 / (registers - 1)))
    return math.sqrt(max(0.0, grown - members))


def bias(members: float, registers: int) -> float:
    """How far HyperLogLog's formula is off on average, however many seeds there are: 2.4 % just above the bound.

    Where there are t members a register, its greatest rank is at most k with the probability e^(-t / 2^k).
    """
    share = members / registers
    if not _BOUND < share < 2 * _BOUND:
        return 0.0
    inverse = sum(math.exp(-share / 2.0**k) / 2.0 ** (k + 1) for k in range(40))
    return members * abs(0.7213 / (share * inverse) - 1)


def of_vertex(reachable: float, harmonic: float, distances: float, lost: float) -> Dict[str, float]:
    """What figures of a vertex err by on average, where *reachable* errs by ``lost``; that is, so many others are lost."""
    if distances <= 0:
        return {"reachable": lost, "harmonic": 0.0, "closeness": 0.0, "lin": 0.0, "distances": 0.0}
    others = max(1.0, reachable - 1)
    # How distances vary: their deviation, in parts of their mean. (Means of theirs and of their inverses say it exactly if
    # they are as an inverse Gaussian's, or all the same.)
    varied = math.sqrt(max(0.0, distances * harmonic / others**2 - 1))
    lin = reachable**2 / distances
    # What remains of Lin's index where one vertex at the mean distance is lost; of the last one it is 1.
    rest = lin * (others / reachable) ** 2 * others / (others - 1) if others > 1.5 else 1.0
    return {
        "reachable": lost,
        "harmonic": lost * harmonic / others,
        "closeness": lost * (1 + varied) / distances / max(1.0, others - 1),
        "lin": lost * math.hypot(lin - rest, lin * varied / others),
        "distances": lost * (1 + varied) * distances / others,
    }


def of_sum(news: Sequence[float], parts: Iterable[float], lost: float) -> float:
    """What a sum over the pairs of two vertices errs by on average, where a ball of the mean size errs by ``lost``.

    ``news`` are N(0) and what each superstep adds; ``parts`` is what a pair at each distance from 1 on adds to the sum. Two
    vertices that share a register do so in each ball that has both: say in as many as have a vertex, on average. So the
    squares of all balls' errors are added up that many times. (Where there are great balls, the seeds differ by more.)
    """
    pairs = sum(news[1:])
    return lost * math.sqrt(sum(news) * sum(part * part * new for part, new in zip(parts, news[1:])) / pairs) if pairs > 0 else 0.0


def moments(news: Sequence[float]) -> Tuple[float, float]:
    """The mean and the variance of the distances of all pairs of two vertices."""
    pairs = sum(news[1:])
    mean = sum(i * new for i, new in enumerate(news)) / pairs
    return mean, sum((i - mean) ** 2 * new for i, new in enumerate(news) if i) / pairs
