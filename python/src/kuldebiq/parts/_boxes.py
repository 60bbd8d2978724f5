"""Boxes as the client goes through the parts by them, and the points of codes."""

from __future__ import annotations

from collections.abc import Iterator
from operator import le
from typing import NamedTuple

import numpy

from .._codes import BITS, corner_of
from .._errors import number_of
from .._library import ffi, lib


def points_of(codes: numpy.ndarray, dims: int) -> numpy.ndarray:
    """The points of codes: bit b of coordinate c is bit ``b * dims + c`` of the code."""
    columns = numpy.zeros((dims, len(codes)), numpy.uint64)
    for place in range(BITS[dims] * dims):
        bit, column = divmod(place, dims)
        columns[column] |= (codes >> numpy.uint64(place - bit)) & numpy.uint64(1 << bit)
    return columns.T.astype(numpy.uint32, order="C")


def point_of(code: int, dims: int) -> list[int]:
    """The point of a code."""
    point = ffi.new("uint32_t[]", dims)
    number_of(lib.kuldebiq_point(code, point, dims))
    return list(point)


def cells_from(code: int, bits: int) -> Iterator[tuple[int, int]]:
    """Cells, from their first to their last code, that have all codes from one on, in order.

    Behind the code itself there is a cell for each of its bits that isn't set: with the bits above
    as they are, this one set, and any below.
    """
    yield code, code
    for bit in range(bits):
        if not code >> bit & 1:
            start = (code >> bit | 1) << bit
            yield start, start + (1 << bit) - 1


class Box(NamedTuple):
    """The points from low to high in each coordinate, both included."""

    low: list[int]
    high: list[int]

    def next_code(self, code: int) -> int | None:
        """The least code of the box that is at or above a code, if there is one.

        The points of a cell are a box, too. Where the two meet they have the box from the greater
        lows to the lesser highs, and the least code of a box is that of its low.
        """
        dims = len(self.low)
        for start, stop in cells_from(code, BITS[dims] * dims):
            low = [*map(max, self.low, point_of(start, dims))]
            high = [*map(min, self.high, point_of(stop, dims))]
            if all(map(le, low, high)):
                return number_of(lib.kuldebiq_code(low, dims))
        return None


def box_of(low, high, dims: int) -> Box:
    """A box by two corners, which a caller gives."""
    return Box(corner_of(low, dims, "low"), corner_of(high, dims, "high"))
