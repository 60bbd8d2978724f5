"""Questions to all parts as to one list."""

from __future__ import annotations

import os
import warnings
import zlib
from functools import partial
from mmap import MADV_DONTNEED, mmap
from pathlib import Path

import numpy
from numpy.typing import ArrayLike, NDArray

from .._errors import BadValue
from .._files import key_file
from .._keys import SortedKeys
from .._library import WORD_MAX
from .._numbers import words
from ._folder import Part, check_ends, load, unreadable

# So many questions are on their way to the workers at once: 32 MB.
_ROUND = 1 << 22
# So many parts are kept mapped in one process: their keys by the path of the file, behind what the
# file was, and before what is wrong with their hints.
_KEPT = 1024
_kept: dict[str, tuple] = {}


class HintsWarning(RuntimeWarning):
    """The hints of a part are missing or damaged. Its answers are right, and come more slowly."""


class Parts:
    """The parts of a sorted list, asked as one list.

    A part's file is mapped by the worker that is asked for it, when it is first asked, and stays
    mapped; its hints are read then. A worker that dies is asked no more, and its questions go to
    another one. Without a client this process does the same.

    Parameters
    ----------
    folder : path
        What ``make`` has made. The workers see it under the same name.
    client : distributed.Client, optional
        Whose workers are asked.

    Attributes
    ----------
    epsilon : int
        The error bound of the hints.
    dims : int or None
        How many coordinates the points have, if the keys are codes of points (``PartPoints``).
    lines : int
        How many lines the hints of all parts have.
    spare : int
        How many fewer, at most, could be enough for the whole list. A line can go over an edge of
        two parts, which is one for each edge; and where equal keys run over an edge, one side or
        both have a point there that the whole list doesn't have, which is two more.

    Raises
    ------
    ValueError
        If ``parts.json`` is damaged or of a newer format, or a part is missing, has another length,
        or another first or last key than when it was made. What is between isn't looked at.
    OSError
        If there is no ``parts.json``, or it can't be read.

    Warns
    -----
    HintsWarning
        If the hints of a part that is asked aren't those that were made. No answer is wrong by it.
    """

    # What the list has.
    _items = "keys"

    def __init__(self, folder: str | os.PathLike, client=None):
        self._folder = os.path.abspath(folder)
        self._client = client
        self.epsilon, self._parts, self.dims = load(Path(self._folder))
        for part in self._parts:
            check_ends(self._folder, part)
        self._firsts = SortedKeys(numpy.array([part.first for part in self._parts], numpy.uint64))
        counts = numpy.array([part.count for part in self._parts], numpy.intp)
        self._ends = counts.cumsum()
        self._told: set[str] = set()
        self.lines = sum(part.lines for part in self._parts)
        edges = list(zip(self._parts, self._parts[1:]))
        self.spare = len(edges) + 2 * sum(left.last == right.first for left, right in edges)

    def __len__(self) -> int:
        return int(self._ends[-1]) if self._parts else 0

    def __str__(self) -> str:
        return (
            f"{len(self):,} {self._items} in {len(self._parts):,} parts, with {self.lines:,} lines:"
            f" lines over all {self._items} at once could be at most {self.spare:,} fewer"
        )

    def __repr__(self) -> str:
        return f"<{type(self).__name__} of {self._folder!r}: {self}>"

    def positions(self, questions: ArrayLike) -> NDArray[numpy.intp]:
        """How many keys of the whole list are below each question: ``numpy.searchsorted``.

        Parameters
        ----------
        questions : array_like, shape (m,)
            Whole numbers from 0 to 2^64 - 1 in any order.

        Raises
        ------
        TypeError, OverflowError
            If the questions aren't a row of whole numbers from 0 to 2^64 - 1.
        ValueError
            If a part that is asked is missing or isn't the one that was made any more.
        """
        row = words(questions, "questions")
        places = numpy.zeros(len(row), numpy.intp)
        for start in range(0, len(row) if self._parts else 0, _ROUND):
            places[start : start + _ROUND] = self._round(row[start : start + _ROUND])
        return places

    def counts(self, lows: ArrayLike, highs: ArrayLike) -> NDArray[numpy.intp]:
        """How many keys there are from each low to the high beside it, both included.

        It is 0 where the low is above the high. The errors are those of ``positions``, and
        ``ValueError`` if there aren't as many highs as lows.
        """
        lows, highs = words(lows, "lows"), words(highs, "highs")
        if len(lows) != len(highs):
            raise BadValue(f"there are {len(lows)} lows and {len(highs)} highs")
        is_greatest = highs == numpy.uint64(WORD_MAX)
        behind = numpy.where(is_greatest, highs, highs + numpy.uint64(1))
        places = self.positions(numpy.concatenate([lows, behind]))
        starts, stops = places[: len(lows)], places[len(lows) :]
        stops[is_greatest] = len(self)
        return numpy.maximum(stops - starts, 0)

    def keys(self, start: int | None = 0, stop: int | None = None) -> NDArray[numpy.uint64]:
        """The keys from place start to before place stop, which are taken as those of a slice.

        Raises
        ------
        ValueError
            If a part that is asked is missing or isn't the one that was made any more.
        """
        start, stop, _ = slice(start, stop).indices(len(self))
        if start >= stop:
            return numpy.empty(0, numpy.uint64)
        first, last = self._ends.searchsorted([start, stop - 1], side="right")
        homes = self._homes()
        calls = []
        for number in range(first, last + 1):
            part = self._parts[number]
            ends = max(start - part.offset, 0), min(stop - part.offset, part.count)
            calls.append((homes[number % len(homes)], partial(stretch, self._folder, part, *ends)))
        return numpy.concatenate(self._answers(calls))

    def _homes(self) -> list:
        """The workers, each as often as it has threads. A part is always asked of the same one, as
        long as all of them live."""
        if self._client is None:
            return [None]
        threads = self._client.nthreads()
        return [home for home in sorted(threads) for _ in range(threads[home])] or [None]

    def _round(self, row: numpy.ndarray) -> numpy.ndarray:
        """The places of some questions, which go to the homes grouped by part."""
        homes = self._homes()
        of_question = numpy.maximum(self._firsts.positions(row) - 1, 0)
        # The parts in the order of their homes: part p is that of home p % len(homes).
        dealt = (numpy.arange(len(self._parts)) % len(homes)).argsort(kind="stable")
        rank = numpy.empty(len(dealt), numpy.uint16 if len(dealt) < 1 << 16 else numpy.intp)
        rank[dealt] = numpy.arange(len(dealt))
        order = rank[of_question].argsort(kind="stable")
        asked = numpy.bincount(of_question, minlength=len(dealt))
        grouped, calls, start = row[order], [], 0
        for home, name in enumerate(homes):
            numbers = numpy.flatnonzero(asked[home :: len(homes)]) * len(homes) + home
            counts = asked[numbers]
            stop = start + int(counts.sum())
            if start < stop:
                parts = [self._parts[number] for number in numbers]
                call = partial(answer, self._folder, parts, counts, grouped[start:stop])
                calls.append((name, call))
            start = stop
        places = numpy.empty(len(row), numpy.intp)
        places[order] = numpy.concatenate(self._answers(calls))
        return places

    def _answers(self, calls: list) -> list[numpy.ndarray]:
        """What the homes answer; of damaged hints a warning comes, once for each file."""
        if self._client is None:
            answers = [call() for _, call in calls]
        else:
            answers = self._client.gather([self._submit(home, call) for home, call in calls])
        for complaint in {text for _, texts in answers for text in texts} - self._told:
            self._told.add(complaint)
            warnings.warn(complaint, HintsWarning, stacklevel=4)
        return [row for row, _ in answers]

    def _submit(self, home, call):
        """A call to its home, or to another worker where that one has died."""
        if home is None:
            return self._client.submit(call, pure=False)
        return self._client.submit(call, pure=False, workers=[home], allow_other_workers=True)


# What a worker does.


def answer(folder, parts, counts, row) -> tuple[numpy.ndarray, list[str]]:
    """The places of questions in the whole list: so many of them are in each part, one part after
    another. Beside them what is wrong with hints."""
    places = numpy.empty(len(row), numpy.intp)
    complaints, start = [], 0
    for part, count in zip(parts, counts):
        keys, complaint = opened(folder, part)
        places[start : start + count] = keys.positions(row[start : start + count]) + part.offset
        complaints += complaint
        start += count
        give_back(keys)
    return places, complaints


def stretch(folder, part, start, stop) -> tuple[numpy.ndarray, list[str]]:
    """The keys of a stretch of a part."""
    keys, complaint = opened(folder, part)
    row = numpy.array(keys[start:stop])
    give_back(keys)
    return row, complaint


def opened(folder: str, part: Part) -> tuple[SortedKeys, list[str]]:
    """The keys of a part, mapped once as long as its file is the same, and what is wrong with its
    hints."""
    path = os.path.join(folder, part.keys)
    try:
        found = os.stat(path)
    except OSError as error:
        raise unreadable(path, error) from None
    is_now = part, found.st_dev, found.st_ino, found.st_size, found.st_mtime_ns
    was, keys, complaint = _kept.get(path, (None, None, None))
    if was != is_now:
        check_ends(folder, part)
        hints, complaint = _hints(os.path.join(folder, part.hints), part)
        keys = SortedKeys(key_file(path), hints, check=False)
        _forget()
        _kept[path] = is_now, keys, complaint
    return keys, complaint


def _forget() -> None:
    """Unmap the parts that are removed, which keep their room on the disk until then, and the
    oldest of too many."""
    paths = list(_kept)
    oldest = paths[: max(len(paths) - _KEPT + 1, 0)]
    for path in {*oldest, *(path for path in paths if not os.path.exists(path))}:
        _kept.pop(path, None)


def give_back(keys: SortedKeys) -> None:
    """Take the pages of a part out of this process's memory; they stay in the system's. Dask counts
    those that are mapped, and stops a worker that has too many."""
    pages = keys[:]
    while not isinstance(pages, mmap):
        pages = pages.base
    pages.madvise(MADV_DONTNEED)


def _hints(path, part):
    """The hints of a part, or none if they aren't those that were made with it.

    They are read and not mapped: a mapped file that is cut off ends the process.
    """
    try:
        with open(path, "rb") as file:
            content = file.read()
    except OSError as error:
        return [], [f"the hints {path!r} can't be read: {error.strerror}"]
    if zlib.crc32(content) != part.hints_crc32 or len(content) % 8 != 0:
        return [], [f"the hints {path!r} are damaged, or those of another part"]
    return numpy.frombuffer(content, "<u8"), []
