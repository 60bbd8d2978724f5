"""The segments of an index over sorted keys."""

from __future__ import annotations

import numpy
from numpy.typing import ArrayLike, NDArray

from ._errors import number_of
from ._library import ffi, lib, new_handle, words_at, record_of
from ._numbers import half, words

__all__ = ["segments"]

_EPSILON_ABOVE = 4
SEGMENT = record_of("kuldebiq_segment")


def segments(keys: ArrayLike, epsilon: int = 64) -> NDArray[numpy.void]:
    """The fewest segments whose lines are within epsilon of the places of sorted keys.

    Parameters
    ----------
    keys : array_like, shape (n,)
        Sorted keys, as ``SortedKeys`` takes them. They are copied for the time of the call.
    epsilon : int, optional
        The error bound, in places, at most 1,048,576.

    Returns
    -------
    numpy.ndarray, shape (segments,)
        A record for each segment. `start` is its first point; `x0`, `y0`, `rise` and `run` are its
        line, ``y0 + rise * (x - x0) / run``; and no line is within epsilon of the three points
        `p`, `q` and `r`, the last of which is the next segment's first one: so it had to end.
        `side` is 1 where `r` lies over all lines that fit the segment, 2 where under them, and 0
        for the last segment, which has no such points. The line passes the points `a` and `b` by
        epsilon. Points are numbered as `points` gives them.

    Raises
    ------
    TypeError, ValueError, OverflowError, MemoryError
        As ``SortedKeys`` says.
    """
    row = words(keys)
    index = new_handle("kuldebiq_index *", lib.kuldebiq_index_free)
    number_of(
        lib.kuldebiq_index_build(
            index, words_at(row), len(row), half(epsilon, "epsilon"), _EPSILON_ABOVE
        )
    )
    count = number_of(lib.kuldebiq_index_segments(index, 0)) if len(row) > 0 else 0
    found = numpy.zeros(count, SEGMENT)
    room = ffi.from_buffer("kuldebiq_segment[]", found)
    for place in range(count):
        number_of(lib.kuldebiq_index_segment(index, 0, place, room + place))
    return found


def points(keys: ArrayLike) -> tuple[NDArray[numpy.uint64], NDArray[numpy.int64]]:
    """The points that the lines go along, as their x and their y.

    Each distinct key is one, at its first place, and so is the number behind a repeated key, at
    the place behind the last of these, unless it is a key too or has more than 64 bits.
    """
    row = words(keys)
    if len(row) == 0:
        return row, numpy.empty(0, numpy.int64)
    is_first = numpy.append(True, row[1:] != row[:-1])
    firsts = numpy.flatnonzero(is_first)
    x, y = row[firsts], firsts
    ends = numpy.append(firsts[1:], len(row))
    behind = x + numpy.uint64(1)
    following = numpy.append(x[1:], x[-1])
    closes = (ends - firsts > 1) & (behind != 0) & (behind != following)
    closes[-1] = ends[-1] - firsts[-1] > 1 and behind[-1] != 0
    at = numpy.flatnonzero(closes) + 1
    return numpy.insert(x, at, behind[closes]), numpy.insert(y, at, ends[closes])
