"""Points of two to four coordinates: those in a box, and those nearest to a centre."""

from __future__ import annotations

import os
from typing import NamedTuple, SupportsIndex

import numpy
from numpy.typing import ArrayLike, NDArray

from ._codes import codes_of, corner_of, stretches_of, table_of
from ._errors import BadValue, number_of
from ._keys import SortedKeys
from ._library import ffi, lib, record_of
from ._numbers import word

__all__ = ["Points"]

_NEIGHBOUR = record_of("kuldebiq_neighbour")


def _exact(low: numpy.ndarray, high: numpy.ndarray) -> numpy.ndarray:
    """The numbers ``low + 2**64 * high``."""
    return low.astype(object) + high.astype(object) * (1 << 64) if high.any() else low.copy()


def _roots(low: numpy.ndarray, high: numpy.ndarray) -> numpy.ndarray:
    return numpy.sqrt(low + high * 2.0**64)


_METRICS = {
    "euclid": (lib.KULDEBIQ_EUCLID, _roots),
    "squares": (lib.KULDEBIQ_EUCLID, _exact),
    "chebyshev": (lib.KULDEBIQ_CHEBYSHEV, _exact),
}


class Neighbours(NamedTuple):
    """Rows of points, the nearest first, and how far they are."""

    rows: NDArray[numpy.intp]
    distances: numpy.ndarray


class Points:
    """Points of 2, 3 or 4 whole numbers: those in a box, and those nearest to a centre.

    They are kept by their codes, which interleave the bits of their coordinates (Morton's codes, or
    Z-order), in sorted order: 8 bytes a point, and as many for the number of its row.

    Points don't change, so threads may share them, and no call waits for another one.

    Parameters
    ----------
    points : array_like, shape (n, dims), or DataFrame of dims columns
        Whole numbers from 0 on, each below 2^32 if dims is 2, below 2^21 if it is 3, and below 2^16
        if it is 4. They are copied.
    hints : array_like of uint64, str or path-like, optional
        Hints of these points that were made before, as ``codes.hints``, or the file of them. If
        None, they are made; ``[]`` is none. Whatever they are, no answer becomes wrong.
    epsilon : int, optional
        The error bound of hints that are made, as for ``SortedKeys``.

    Raises
    ------
    TypeError
        If the points are no table of whole numbers.
    OverflowError
        If a number is out of range. The error names its column and row, and what to do.
    ValueError
        If there are not 2 to 4 columns, or epsilon is too great, or the file isn't one of hints.
    MemoryError
        If there is no memory for the hints.

    Notes
    -----
    Each error but ``TypeError`` is a ``kuldebiq.Refused`` as well. Numbers with a sign or with
    decimals become coordinates by adding one number to all and multiplying all by another, as
    ``((degrees + 180) * 10_000).round().astype("uint32")``.

    Examples
    --------
    >>> import kuldebiq
    >>> points = kuldebiq.Points([(1, 9), (4, 4), (5, 2), (9, 1), (4, 4)])
    >>> points.rows((4, 1), (5, 9)), points.count((4, 1), (5, 9))
    (array([1, 2, 4]), 3)
    >>> rows, distances = points.nearest((4, 3), k=3)
    >>> rows, distances
    (array([1, 4, 2]), array([1.        , 1.        , 1.41421356]))

    Of a table the rows are ``frame.iloc[points.rows(low, high)]``. Columns that are brought in the
    order of the codes once are read stretch by stretch:

    >>> import numpy
    >>> amounts = numpy.array([10, 20, 30, 40, 50])[points.order]
    >>> print(sum(amounts[start:stop].sum() for start, stop in points.box((4, 1), (5, 9))))
    100
    """

    __slots__ = ("_dims", "_order", "_codes", "__weakref__")

    def __init__(
        self,
        points: ArrayLike,
        hints: ArrayLike | str | os.PathLike | None = None,
        *,
        epsilon: int = 64,
    ):
        table = table_of(points)
        codes = codes_of(table)
        self._dims = table.shape[1]
        self._order = codes.argsort(kind="stable")
        self._codes = SortedKeys(codes[self._order], hints, epsilon=epsilon, check=False)

    @property
    def dims(self) -> int:
        """How many coordinates a point has."""
        return self._dims

    @property
    def codes(self) -> SortedKeys:
        """The codes in sorted order, with their hints. The place of a point is that of its code."""
        return self._codes

    @property
    def order(self) -> NDArray[numpy.intp]:
        """The row of each place: an array of shape (n,), read-only.

        Equal points keep the order of their rows.
        """
        order = self._order.view()
        order.flags.writeable = False
        return order

    def box(self, low: ArrayLike, high: ArrayLike) -> NDArray[numpy.intp]:
        """Where the points from low to high stand, both included in each coordinate.

        Parameters
        ----------
        low, high : array_like, shape (dims,)
            Two corners. If a low is above its high, no point is between.

        Returns
        -------
        numpy.ndarray of intp, shape (m, 2)
            Stretches of places, each from its first number on and before its second one, for
            `codes` and for columns in that `order`. They rise, and no two of them meet.

        Raises
        ------
        TypeError, OverflowError
            If the corners aren't rows of whole numbers in the range of a coordinate.
        ValueError
            If a corner has more or fewer coordinates than the points.
        """
        corners = corner_of(low, self._dims, "low"), corner_of(high, self._dims, "high")
        return stretches_of(self._codes._where, *corners)

    def rows(self, low: ArrayLike, high: ArrayLike) -> NDArray[numpy.intp]:
        """The rows of the points from low to high, both included in each coordinate, rising.

        They are ``numpy.flatnonzero(((low <= points) & (points <= high)).all(axis=1))``. Parameters
        and errors are those of `box`.
        """
        order, stretches = self._order, self.box(low, high).tolist()
        rows = numpy.concatenate([order[:0], *(order[start:stop] for start, stop in stretches)])
        rows.sort()
        return rows

    def count(self, low: ArrayLike, high: ArrayLike) -> int:
        """How many points there are from low to high, both included in each coordinate.

        Parameters and errors are those of `box`.
        """
        stretches = self.box(low, high)
        return int((stretches[:, 1] - stretches[:, 0]).sum())

    def nearest(
        self, centre: ArrayLike, k: SupportsIndex = 1, metric: str = "euclid"
    ) -> Neighbours:
        """The points nearest to a centre: by distance, and equally far ones by code, then by row.

        Parameters
        ----------
        centre : array_like, shape (dims,)
            Whole numbers in the range of a coordinate.
        k : int, optional
            How many points; all of them if there are fewer.
        metric : str, optional
            "euclid" is the root of the sum of squares, "squares" that sum itself, and "chebyshev"
            the greatest difference of a coordinate.

        Returns
        -------
        rows : numpy.ndarray of intp, shape (min(k, n),)
        distances : numpy.ndarray, shape (min(k, n),)
            Of "euclid" ``float64``, each rounded: which rows, and their order, rest on the exact
            squares. Of the others exact: ``uint64``, or Python's ints if a square is 2^64 or more.

        Raises
        ------
        TypeError, OverflowError
            If the centre or k isn't whole numbers in range.
        ValueError
            If the centre has more or fewer coordinates than the points, or there is no such metric.
        """
        if metric not in _METRICS:
            known = ", ".join(map(repr, _METRICS))
            raise BadValue(f"a metric is one of {known}, and this is {metric!r}")
        code, distances_of = _METRICS[metric]
        at = ffi.new("uint32_t[]", corner_of(centre, self._dims, "centre"))
        found = numpy.empty(min(word(k, "k"), len(self)), _NEIGHBOUR)
        room = ffi.from_buffer("kuldebiq_neighbour[]", found), len(found)
        count = number_of(lib.kuldebiq_nearest(*self._codes._where, at, self._dims, code, *room))
        found = found[:count]
        rows = self._order[found["place"].astype(numpy.intp)]
        return Neighbours(rows, distances_of(found["distance"], found["distance_high"]))

    def __len__(self) -> int:
        return len(self._codes)

    def __repr__(self) -> str:
        return f"Points({len(self)} of {self._dims} coordinates)"
