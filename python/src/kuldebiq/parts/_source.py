"""Where the numbers come from, as chunks that a worker can hold."""

from __future__ import annotations

import os
from typing import NamedTuple

import numpy

from .._files import key_file
from .._numbers import type_name, words

CHUNK = 1 << 22


class FileChunk(NamedTuple):
    """Some numbers of a file."""

    path: str
    start: int
    stop: int

    def row(self) -> numpy.ndarray:
        return _mapped(self.path)[self.start : self.stop]


def is_array(path: str) -> bool:
    """Whether a file has an array of numpy."""
    with open(path, "rb") as file:
        return file.read(6) == b"\x93NUMPY"


def _mapped(path: str) -> numpy.ndarray:
    """The numbers of a file where they lie: of an array of numpy, or a key file."""
    row = numpy.load(path, mmap_mode="r") if is_array(path) else key_file(path)
    if row.ndim != 1 or row.dtype.kind not in "ui":
        raise TypeError(
            f"keys are a row of whole numbers, and {path!r} has {row.ndim} dimensions and"
            f" {row.dtype}"
        )
    return row


def paths_of(source) -> list[str]:
    """The paths of a source that is one, or a list of them; none of any other."""
    sources = source if isinstance(source, (list, tuple)) else [source]
    are_paths = all(isinstance(each, (str, os.PathLike)) for each in sources)
    return [os.path.abspath(path) for path in sources] if are_paths else []


def has_dimensions(source, count: int) -> bool:
    """Whether a collection of Dask has so many dimensions. Of a ``Delayed`` nobody knows."""
    known = getattr(source, "ndim", None)
    return isinstance(known, int) and known == count


def chunks_of(source) -> tuple[None, list]:
    """The chunks of files, of a collection of Dask, or of anything that ``SortedKeys`` takes. Such
    numbers aren't those of points, so nothing is said of coordinates."""
    if hasattr(source, "__dask_graph__"):
        if not has_dimensions(source, 1):
            raise TypeError(
                "keys are one row, as a Dask array of one dimension or a column of a Dask"
                f" DataFrame, and this is of type {type_name(source)}"
            )
        return None, list(numpy.ravel(source.to_delayed()))
    paths = paths_of(source)
    if paths:
        files = [of_file(FileChunk, path, len(_mapped(path))) for path in paths]
        return None, [chunk for chunks in files for chunk in chunks]
    return None, of_row(words(source))


def of_file(kind, path: str, count: int) -> list[FileChunk]:
    """The chunks of a file with so many items."""
    return [kind(path, start, min(start + CHUNK, count)) for start in range(0, count, CHUNK)]


def of_row(row: numpy.ndarray) -> list[numpy.ndarray]:
    return [row[start : start + CHUNK] for start in range(0, len(row), CHUNK)]


def row_of(chunk) -> numpy.ndarray:
    """The numbers of a chunk as they lie."""
    if hasattr(chunk, "compute"):
        chunk = chunk.compute()
    return chunk.row() if isinstance(chunk, FileChunk) else words(chunk)
