"""Where points come from, as chunks of their codes that a worker can hold."""

from __future__ import annotations

import os

import numpy

from .._codes import BITS, codes_of, table_of
from .._errors import BadValue, refusal
from .._library import lib
from .._numbers import type_name
from ._source import FileChunk, has_dimensions, is_array, of_file, of_row, paths_of


class PointChunk(FileChunk):
    """Some points of a file."""

    def row(self) -> numpy.ndarray:
        return coded(_mapped(self.path)[self.start : self.stop])


def coded(points) -> numpy.ndarray:
    """The codes of points, as far as these are points."""
    return codes_of(table_of(points))


def point_chunks_of(source) -> tuple[int, list]:
    """How many coordinates a point has, and the chunks of files, of a collection of Dask, or of a
    table."""
    if hasattr(source, "__dask_graph__"):
        return _of_collection(source)
    paths = paths_of(source)
    if paths:
        return _of_files(paths)
    table = table_of(source)
    return table.shape[1], of_row(codes_of(table))


def _of_collection(source) -> tuple[int, list]:
    from dask import delayed

    if not has_dimensions(source, 2):
        raise TypeError(
            "points are a Dask array of two dimensions or columns of a Dask DataFrame, and this is"
            f" of type {type_name(source)}"
        )
    dims = len(source.columns) if hasattr(source, "columns") else source.shape[1]
    if dims not in BITS:
        raise refusal(lib.KULDEBIQ_DIMS_OUT_OF_RANGE, dims)
    if getattr(source, "numblocks", (1, 1))[1] > 1:
        source = source.rechunk({1: dims})
    return dims, [delayed(coded)(chunk) for chunk in numpy.ravel(source.to_delayed())]


def _of_files(paths: list[str]) -> tuple[int, list[PointChunk]]:
    chunks, dims = [], None
    for path in paths:
        points = _mapped(path)
        if points.shape == (0, 0):
            continue
        # None of them is read here.
        columns = table_of(points[:0]).shape[1]
        if columns != (dims or columns):
            raise BadValue(
                f"the points of {path!r} have {columns} coordinates, and those before {dims}"
            )
        dims = columns
        chunks += of_file(PointChunk, path, len(points))
    if dims is None:
        raise BadValue(f"{paths[0]!r} has no points, and nothing says how many coordinates one has")
    return dims, chunks


def _mapped(path: str) -> numpy.ndarray:
    """The points of a file where they lie: of an array of numpy, or a point file."""
    return numpy.load(path, mmap_mode="r") if is_array(path) else _point_file(path)


def _point_file(path: str) -> numpy.ndarray:
    """Map a point file: how many points it has, and their coordinates, of 32 bits each. That says
    how many coordinates a point has, if there is one; else they have none here."""
    with open(path, "rb") as file:
        head = file.read(8)
        size = os.fstat(file.fileno()).st_size - 8
    count = int.from_bytes(head, "little")
    if count == size == 0:
        return numpy.empty((0, 0), numpy.uint32)
    for dims in BITS:
        if size == 4 * dims * count:
            return numpy.memmap(path, "<u4", mode="r", offset=8, shape=(count, dims))
    raise BadValue(
        f"{path!r} is no point file: it says that it has {count} points, and {max(size, 0)} bytes"
        " follow, where there should be 8, 12 or 16 for each"
    )
