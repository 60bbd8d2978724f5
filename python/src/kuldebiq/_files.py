"""Key files and files of hints."""

from __future__ import annotations

import os

import numpy

from ._errors import BadValue

__all__ = ["key_file"]


def key_file(path: str | os.PathLike) -> numpy.ndarray:
    """Map a key file, which holds the number of its keys and then the sorted keys (SOSD).

    Only the number is read here; ``SortedKeys`` checks that the keys are sorted. A file that is
    made shorter while it is mapped ends the process that reads it.

    Parameters
    ----------
    path : str or path-like
        A file of a 64-bit count and that many unsigned 64-bit keys, or 32-bit ones, all with the
        lowest byte first.

    Returns
    -------
    numpy.ndarray
        The keys where they lie, of shape (count,), read-only, ``uint64`` or ``uint32``.

    Raises
    ------
    ValueError
        If the file is longer or shorter than its count says (also a ``Refused``).
    OSError
        If the file can't be opened.
    """
    with open(path, "rb") as file:
        head = file.read(8)
        size = os.fstat(file.fileno()).st_size - 8
    if len(head) < 8:
        raise BadValue(f"{os.fspath(path)!r} is no key file: it ends before its count does")
    count = int.from_bytes(head, "little")
    if count == 0 and size == 0:
        return numpy.empty(0, numpy.uint64)
    for dtype in ("<u8", "<u4"):
        if size == count * numpy.dtype(dtype).itemsize:
            return numpy.memmap(path, dtype, mode="r", offset=8, shape=(count,))
    raise BadValue(
        f"{os.fspath(path)!r} is no key file: it says that it has {count} keys, and {size} bytes"
        f" follow, where there should be {8 * count}, or {4 * count} for keys of 32 bits"
    )


def read_hints(path: str | os.PathLike, number_of_format: int) -> numpy.ndarray:
    """The words of a file of hints, which begin with the number of their format."""
    size = os.path.getsize(path)
    if size % 8 == 0:
        words = numpy.fromfile(path, "<u8")
        if len(words) > 0 and int(words[0]) == number_of_format:
            return words
    raise BadValue(f"{os.fspath(path)!r} is no file of hints")


def write_hints(path: str | os.PathLike, words: numpy.ndarray) -> None:
    with open(path, "wb") as file:
        file.write(words.astype("<u8", copy=False).data)
