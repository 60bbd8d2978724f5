"""How long lookups take beside bisect, numpy.searchsorted and SortedDict, and points beside numpy.

    python3 python/bench.py [KEYS]

KEYS is how many random keys there are, and points in the plane, a million if it isn't said. Each
time is the least of several runs, in nanoseconds for one lookup. What isn't installed is left out.
"""

import bisect
import sys
import timeit
from functools import partial

import numpy

import kuldebiq

try:
    from sortedcontainers import SortedDict
except ImportError:
    SortedDict = None

SINGLE = 2000
BOXES = 20
SIDE = 1 << 20
RUNS = 7


def nanoseconds(call, count):
    """The least time of several runs, for each of so many lookups."""
    return min(timeit.repeat(call, number=1, repeat=RUNS)) * 1e9 / count


def each(ask, questions):
    def run():
        for question in questions:
            ask(question)

    return run


def empty_loop(questions):
    return nanoseconds(each(lambda question: None, questions), len(questions))


def lookups(row, questions):
    keys, row_list = kuldebiq.SortedKeys(row), row.tolist()
    single = questions[:SINGLE].tolist()
    yield "kuldebiq.SortedKeys, one", each(keys.position, single), SINGLE
    yield "bisect.bisect_left, one", each(partial(bisect.bisect_left, row_list), single), SINGLE
    yield "numpy.searchsorted, one", each(row.searchsorted, questions[:SINGLE]), SINGLE
    yield "kuldebiq.SortedKeys, a million", lambda: keys.positions(questions), len(questions)
    yield "numpy.searchsorted, a million", lambda: row.searchsorted(questions), len(questions)


def maps(row, questions):
    made = kuldebiq.Map(row, row)
    single = row[questions[:SINGLE] % len(row)].tolist()
    yield "kuldebiq.Map, get", each(made.get, single), SINGLE
    yield "kuldebiq.Map, put", each(lambda q: made.__setitem__(q, 1), single), SINGLE
    yield "kuldebiq.Map, next", each(made.next, single), SINGLE
    if SortedDict is not None:
        other = SortedDict(zip(row.tolist(), row.tolist()))
        yield "SortedDict, get", each(other.get, single), SINGLE
        yield "SortedDict, put", each(lambda q: other.__setitem__(q, 1), single), SINGLE
        yield "SortedDict, next", each(lambda q: next(other.irange(q), None), single), SINGLE


def filtered(x, y, corners):
    """The rows in a box, by a test of each."""
    (left, low), (right, high) = corners
    return numpy.flatnonzero((left <= x) & (x <= right) & (low <= y) & (y <= high))


def ten_nearest(x, y, centre):
    """The rows nearest to a centre, by the distances of all."""
    squares = (x - centre[0]) ** 2 + (y - centre[1]) ** 2
    nearest = squares.argpartition(10)[:10]
    return nearest[squares[nearest].argsort()]


def boxes_of(share, chance):
    """Boxes that have about this share of all points."""
    side = int(SIDE * share**0.5)
    low = chance.integers(0, SIDE - side, (BOXES, 2))
    return numpy.stack((low, low + side), axis=1).tolist()


def points(row, questions):
    x, y = (row % SIDE).astype(numpy.int64), (questions[: len(row)] % SIDE).astype(numpy.int64)
    x = x[: len(y)]
    table, chance = numpy.column_stack((x, y)), numpy.random.default_rng(6)
    made = kuldebiq.Points(table)
    yield "kuldebiq.Points, made, for each point", lambda: kuldebiq.Points(table), len(table)
    for share in (1e-5, 1e-3, 1e-1):
        boxes, name = boxes_of(share, chance), f"a box of {share:.3%}"
        yield f"kuldebiq.Points, {name}", each(lambda box: made.rows(*box), boxes), BOXES
        yield f"numpy's filter, {name}", each(partial(filtered, x, y), boxes), BOXES
    centres = chance.integers(0, SIDE, (BOXES, 2)).tolist()
    yield "kuldebiq.Points, 10 nearest", each(partial(made.nearest, k=10), centres), BOXES
    yield "numpy's distances, 10 nearest", each(partial(ten_nearest, x, y), centres), BOXES


def main():
    count = int(sys.argv[1]) if len(sys.argv) > 1 else 1_000_000
    chance = numpy.random.default_rng(5)
    row = numpy.sort(chance.integers(0, 1 << 64, count, dtype=numpy.uint64))
    questions = chance.integers(0, 1 << 64, 1_000_000, dtype=numpy.uint64)
    print(f"{count} random keys, nanoseconds for one lookup")
    nothing = empty_loop(questions[:SINGLE].tolist())
    print(f"{'a call of Python that does nothing':40}{nothing:10.0f}")
    for cases in (lookups, maps, points):
        for name, call, asked in cases(row, questions):
            print(f"{name:40}{nanoseconds(call, asked):10.0f}")


if __name__ == "__main__":
    main()
