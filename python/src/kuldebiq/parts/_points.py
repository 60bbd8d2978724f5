"""Questions to all parts as to one list of points."""

from __future__ import annotations

import os
from functools import partial

import numpy
from numpy.typing import ArrayLike, NDArray

from .._codes import BITS, stretches_of
from .._errors import BadValue
from ._ask import Parts, give_back, opened
from ._boxes import Box, box_of, points_of


class PartPoints(Parts):
    """The parts of a list of points, asked as one list.

    The points are in the order of their codes (Morton's, or Z-order): bit b of coordinate c is bit
    ``b * dims + c`` of the code. The codes are the keys of the list, which ``positions``,
    ``counts`` and ``keys`` answer of.

    Parameters
    ----------
    folder : path
        What ``make_points`` has made. The workers see it under the same name.
    client : distributed.Client, optional
        Whose workers are asked.

    Attributes
    ----------
    dims : int
        How many coordinates a point has, from 2 to 4. They have 32, 21 or 16 bits.
    epsilon, lines, spare : int
        As of ``Parts``.

    Raises
    ------
    ValueError, OSError
        As ``Parts``, and ``ValueError`` if the folder has no points.

    Warns
    -----
    HintsWarning
        As ``Parts``.
    """

    _items = "points"

    def __init__(self, folder: str | os.PathLike, client=None):
        super().__init__(folder, client)
        if self.dims is None:
            raise BadValue(f"{self._folder!r} has parts of keys, and none of points: ask Parts")
        if self._parts and self._parts[-1].last >> BITS[self.dims] * self.dims:
            raise BadValue(f"{self._folder!r} has keys that aren't codes of {self.dims} numbers")
        self._lasts = numpy.array([part.last for part in self._parts], numpy.uint64)

    def box(self, low: ArrayLike, high: ArrayLike) -> NDArray[numpy.intp]:
        """Where the points from low to high stand, both included in each coordinate.

        Only parts that have a code of the box between their ends are asked.

        Parameters
        ----------
        low, high : array_like, shape (dims,)
            Two corners. If a low is above its high, no point is between.

        Returns
        -------
        numpy.ndarray of intp, shape (m, 2)
            Stretches of places in the whole list, each from its first number on and before its
            second one. They rise, and no two of them meet.

        Raises
        ------
        TypeError, OverflowError
            If the corners aren't rows of whole numbers in the range of a coordinate.
        ValueError
            If a corner has more or fewer coordinates than the points, or a part that is asked is
            missing or isn't the one that was made any more.
        """
        box = box_of(low, high, self.dims)
        met, homes, calls = self._met(box), self._homes(), []
        for home, name in enumerate(homes):
            parts = [self._parts[number] for number in met if number % len(homes) == home]
            if parts:
                calls.append((name, partial(boxed, self._folder, parts, box)))
        ends = numpy.concatenate([numpy.empty(0, numpy.intp), *self._answers(calls)])
        ends.sort()
        # Two stretches that meet, at an edge of parts, are one.
        meeting = numpy.flatnonzero(ends[1:] == ends[:-1])
        return numpy.delete(ends, [meeting, meeting + 1]).reshape(-1, 2)

    def count(self, low: ArrayLike, high: ArrayLike) -> int:
        """How many points there are from low to high, both included. The errors are ``box``'s."""
        stretches = self.box(low, high)
        return int((stretches[:, 1] - stretches[:, 0]).sum())

    def points(self, start: int | None = 0, stop: int | None = None) -> NDArray[numpy.uint32]:
        """The points from place start to before place stop, which are taken as those of a slice.

        Returns
        -------
        numpy.ndarray of uint32, shape (n, dims)

        Raises
        ------
        ValueError
            If a part that is asked is missing or isn't the one that was made any more.
        """
        return points_of(self.keys(start, stop), self.dims)

    def _met(self, box: Box) -> list[int]:
        """The parts that have a code of the box from their first to their last key."""
        met, number, code = [], 0, box.next_code(0)
        while code is not None:
            # The first part, of those that are left, that doesn't end before the code.
            number = max(number, int(self._lasts.searchsorted(numpy.uint64(code))))
            if number == len(self._parts):
                break
            part = self._parts[number]
            if code < part.first:
                code = box.next_code(part.first)
            if code is not None and code <= part.last:
                met.append(number)
                number += 1
        return met


# What a worker does.


def boxed(folder: str, parts: list, box: Box) -> tuple[numpy.ndarray, list[str]]:
    """The places in the whole list of some parts' points that are in a box. Beside them what is
    wrong with hints."""
    places, complaints = [], []
    for part in parts:
        keys, complaint = opened(folder, part)
        places.append(stretches_of(keys._where, *box).ravel() + part.offset)
        complaints += complaint
        give_back(keys)
    return numpy.concatenate(places), complaints
