"""Points and boxes as the library takes them: coordinates, codes, and stretches of codes."""

from __future__ import annotations

from collections.abc import Mapping, Set

import numpy
from numpy.typing import NDArray

from ._errors import BadValue, OutOfRange, number_of, refusal
from ._library import ffi, lib, words_at
from ._numbers import type_name, whole_numbers, words

# The bits of a coordinate, by how many a point has.
BITS = {2: 32, 3: 21, 4: 16}


def _columns(points) -> list[tuple[str, numpy.ndarray]]:
    """The columns of a table, each with what it is called in a refusal."""
    if hasattr(points, "iloc") and points.ndim == 2:
        names = enumerate(points.columns)
        return [(f"the numbers of column {name!r}", points.iloc[:, at]) for at, name in names]
    wanted = "points are rows of 2 to 4 numbers, as many each, and this"
    instead = "write numpy.column_stack((x, y))"
    if isinstance(points, (Set, Mapping)):
        raise TypeError(f"{wanted} is of type {type_name(points)}: {instead}")
    try:
        # A masked array stays one, so that what is missing is seen.
        table = numpy.asanyarray(points if hasattr(points, "__array__") else list(points))
    except (TypeError, ValueError):
        raise TypeError(f"{wanted} is of type {type_name(points)}: {instead}") from None
    if table.ndim != 2:
        raise TypeError(f"{wanted} {type_name(points)} has the shape {table.shape}: {instead}")
    return [(f"the numbers of column {at}", table[:, at]) for at in range(table.shape[1])]


def _coordinates(column, what: str, dims: int) -> numpy.ndarray:
    """A column, once each number in it is known to be a coordinate."""
    row = whole_numbers(column, what)
    if len(row) == 0:
        return row
    most = (1 << BITS[dims]) - 1
    for place in (row.argmin(), row.argmax()):
        number = int(row[place])
        if not 0 <= number <= most:
            over = number // (most + 1) + 1
            instead = f"add {-number}" if number < 0 else f"divide by {over} or more"
            raise OutOfRange(
                f"{what} are from 0 to {most}, as of {dims} columns, and at row {place} is"
                f" {number}: {instead}, in each column"
            )
    return row


def table_of(points) -> NDArray[numpy.uint32]:
    """Points as a table with a row for each, judged column by column."""
    columns = _columns(points)
    dims = len(columns)
    if dims not in BITS:
        raise refusal(lib.KULDEBIQ_DIMS_OUT_OF_RANGE, dims)
    judged = [_coordinates(column, what, dims) for what, column in columns]
    table = numpy.empty((len(judged[0]), dims), numpy.uint32)
    for at, row in enumerate(judged):
        table[:, at] = row
    return table


def codes_of(table: NDArray[numpy.uint32]) -> NDArray[numpy.uint64]:
    """The code of each row of a table."""
    count, dims = table.shape
    codes = numpy.empty(count, numpy.uint64)
    number_of(lib.kuldebiq_codes(dims, words_at(table), count * dims, words_at(codes), count))
    return codes


def corner_of(numbers, dims: int, what: str) -> list[int]:
    """As many coordinates as a point has, of a caller's."""
    corner = words(numbers, f"numbers of {what}").tolist()
    if len(corner) != dims:
        raise BadValue(f"{what} has {len(corner)} numbers, and a point has {dims}")
    most = (1 << BITS[dims]) - 1
    if max(corner) > most:
        raise OutOfRange(f"the numbers of {what} are from 0 to {most}, and these are {corner}")
    return corner


def stretches_of(where: tuple, low: list[int], high: list[int]) -> NDArray[numpy.intp]:
    """The places of a box among codes, whose place and hints are given as the calls take them.

    Each row of the array is a stretch: its first place, and the one behind its last.
    """
    found = []
    if all(one <= other for one, other in zip(low, high)):
        region = ffi.new("kuldebiq_region *", (len(low), low, high))
        stretch = ffi.new("kuldebiq_stretch *")
        while number_of(lib.kuldebiq_box(*where, region, stretch.end, stretch)):
            found.append((stretch.first, stretch.end))
    return numpy.array(found, numpy.intp).reshape(-1, 2)
