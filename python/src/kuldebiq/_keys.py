"""Lookups in sorted keys that stay where they are."""

from __future__ import annotations

import os
from collections.abc import Iterator, Sequence
from functools import partial
from operator import index
from typing import SupportsIndex, overload

import numpy
from numpy.typing import ArrayLike, NDArray

from ._errors import BadValue, number_of, refusal
from ._files import read_hints, write_hints
from ._library import WORD_MAX, call_for, ffi, lib, new_handle, words_at
from ._numbers import half, type_name, word, words, words_or_halves

__all__ = ["SortedKeys"]

_BLOCK = 1 << 16


def make_hints(row: numpy.ndarray, epsilon: int) -> numpy.ndarray:
    """The hints of keys, whose order the library judges first."""
    handle = new_handle("kuldebiq_hints *", lib.kuldebiq_hints_free)
    build = call_for(row, "kuldebiq_hints_build")
    count = number_of(build(handle, words_at(row), len(row), half(epsilon, "epsilon")))
    hints = numpy.empty(count, numpy.uint64)
    number_of(lib.kuldebiq_hints_write(handle, words_at(hints), count))
    return hints


def check_sorted(row: numpy.ndarray) -> None:
    """Refuse keys that fall, block by block, so that no copy of all is made."""
    for start in range(0, len(row), _BLOCK):
        block = row[start : start + _BLOCK + 1]
        falls = block[1:] < block[:-1]
        if falls.any():
            raise refusal(lib.KULDEBIQ_UNSORTED, start + int(falls.argmax()) + 1)


class SortedKeys(Sequence):
    """Sorted keys, and how many of them are below a question.

    The keys stay where they lie, as in a ``numpy.memmap``. Hints lead a lookup among them, and need
    not be trusted: hints that are old, damaged or of other keys make a lookup slow, never wrong.

    Threads may share the keys, and no lookup waits for another one. Nobody may write to the keys
    during a lookup.

    Parameters
    ----------
    keys : array_like, shape (n,)
        Whole numbers from 0 to 2^64 - 1 that never fall; a key may repeat. There are fewer than
        2^32 if hints are to be made. ``uint64`` and ``uint32`` in one piece, and ``int64`` and
        ``int32`` where none is below 0, stay where they are: of numpy or a ``memmap``, or what
        pandas, polars, Arrow, an ``array`` or a ``memoryview`` shows of itself. Other whole numbers
        are converted once.
    hints : array_like of uint64, str or path-like, optional
        Hints that were made before, or the file of them. If None, they are made; ``[]`` is none.
    epsilon : int, optional
        The error bound of hints that are made, in places, at most 1,048,576. A greater one gives
        fewer hints, which lead less near.
    check : bool, optional
        Whether the order of keys that come with hints is checked, which reads all of them once;
        making hints always checks it. If the keys fall unchecked, an answer is a place with a key
        below the question before it and none at it.

    Raises
    ------
    ValueError
        If the keys fall, or epsilon is too great, or the file isn't one of hints.
    OverflowError
        If a key is below 0 or has more than 64 bits, or there are too many keys.
    MemoryError
        If there is no memory for the hints.
    TypeError
        If the keys are no row of whole numbers.

    Notes
    -----
    Each error but ``TypeError`` is a ``kuldebiq.Refused`` as well.

    Examples
    --------
    >>> import kuldebiq
    >>> keys = kuldebiq.SortedKeys([2, 3, 5, 7, 11, 13])
    >>> keys.position(6), keys.count(3, 11), 7 in keys, keys.range(3, 11)
    (3, 4, True, slice(1, 5, None))

    Keys of a file that is too long to be read, with hints that were saved:

    >>> keys = kuldebiq.SortedKeys(
    ...     kuldebiq.key_file("some.keys"), hints="some.hints", check=False
    ... )  # doctest: +SKIP
    """

    __slots__ = (
        "_row",
        "_at",
        "_size",
        "_hints",
        "_where",
        "_find",
        "_find_past",
        "_find_many",
        "_find_past_many",
        "__weakref__",
    )

    def __init__(
        self,
        keys: ArrayLike,
        hints: ArrayLike | str | os.PathLike | None = None,
        *,
        epsilon: int = 64,
        check: bool = True,
    ):
        row = words_or_halves(keys)
        if hints is None:
            hints = make_hints(row, epsilon)
        elif check:
            check_sorted(row)
        self._row = row.view()
        self._row.flags.writeable = False
        self._at = words_at(row)
        self._size = len(row)
        if isinstance(hints, (str, os.PathLike)):
            self.load_hints(hints)
        else:
            self._go_by(words(hints, "hints"))

    def _go_by(self, hints: numpy.ndarray) -> None:
        self._hints = hints.view()
        self._hints.flags.writeable = False
        # Each call has its hints' place and count at once, also while others are loaded.
        where = self._at, self._size, words_at(hints), len(hints)
        self._where = where
        self._find = partial(call_for(self._row, "kuldebiq_find"), *where)
        self._find_past = partial(call_for(self._row, "kuldebiq_find_past"), *where)
        self._find_many = partial(call_for(self._row, "kuldebiq_find_many"), *where)
        self._find_past_many = partial(call_for(self._row, "kuldebiq_find_past_many"), *where)

    @property
    def hints(self) -> NDArray[numpy.uint64]:
        """The hints, an array of shape (words,), read-only."""
        return self._hints

    def save_hints(self, path: str | os.PathLike) -> None:
        """Write the hints to a file, 8 bytes each, the lowest first.

        Raises
        ------
        OSError
            If the file can't be written.
        """
        write_hints(path, self._hints)

    def load_hints(self, path: str | os.PathLike) -> None:
        """Go by the hints of a file from now on. Whatever it holds, no answer becomes wrong.

        Raises
        ------
        ValueError
            If the file doesn't begin as one of hints does (also a ``Refused``); then the hints are
            those that were.
        OSError
            If the file can't be read.
        """
        no_keys = make_hints(numpy.empty(0, numpy.uint64), 0)
        self._go_by(read_hints(path, int(no_keys[0])))

    def position(self, question: SupportsIndex) -> int:
        """How many keys are below the question: ``bisect.bisect_left``.

        Raises
        ------
        TypeError, OverflowError
            If the question isn't a whole number from 0 to 2^64 - 1.
        """
        try:
            return self._find(index(question))
        except (TypeError, OverflowError):
            word(question, "a question")
            raise

    def position_after(self, question: SupportsIndex) -> int:
        """How many keys are at most the question: ``bisect.bisect_right``.

        Raises
        ------
        TypeError, OverflowError
            If the question isn't a whole number from 0 to 2^64 - 1.
        """
        try:
            return self._find_past(index(question))
        except (TypeError, OverflowError):
            word(question, "a question")
            raise

    def positions(self, questions: ArrayLike) -> NDArray[numpy.intp]:
        """How many keys are below each question: ``numpy.searchsorted``.

        Other threads of Python go on meanwhile.

        Parameters
        ----------
        questions : array_like, shape (m,)
            Whole numbers from 0 to 2^64 - 1 in any order, taken as the keys are.

        Returns
        -------
        numpy.ndarray of intp, shape (m,)

        Raises
        ------
        TypeError, OverflowError
            If the questions aren't a row of whole numbers from 0 to 2^64 - 1.
        """
        return _places_by(self._find_many, questions)

    def positions_after(self, questions: ArrayLike) -> NDArray[numpy.intp]:
        """How many keys are at most each question: ``numpy.searchsorted`` with ``side="right"``.

        Parameters, result and errors are those of `positions`.
        """
        return _places_by(self._find_past_many, questions)

    def range(self, low: SupportsIndex = 0, high: SupportsIndex = WORD_MAX) -> slice:
        """Where the keys from low to high stand, both included.

        Returns
        -------
        slice
            For these keys and for each column beside them, as ``frame.iloc[keys.range(3, 11)]``.

        Raises
        ------
        TypeError, OverflowError
            If an end isn't a whole number from 0 to 2^64 - 1.
        """
        start = self.position(low)
        return slice(start, max(start, self.position_after(high)))

    def count(self, low: SupportsIndex, high: SupportsIndex | None = None) -> int:
        """How many keys there are from low to high, both included; of low alone if high is None."""
        between = self.range(low, low if high is None else high)
        return between.stop - between.start

    def index(self, key: SupportsIndex, start: int = 0, stop: int | None = None) -> int:
        """The first place of a key, from start to before stop, as of a list.

        Raises
        ------
        ValueError
            If the key isn't there (also a ``Refused``).
        """
        start, stop, _ = slice(start, stop).indices(self._size)
        place = max(self.position(key), start)
        if place < stop and self._at[place] == key:
            return place
        raise BadValue(f"{key} is not among the keys")

    def __len__(self) -> int:
        return self._size

    def __contains__(self, key: object) -> bool:
        try:
            place = self.position(key)  # type: ignore[arg-type]
        except (TypeError, OverflowError):
            return isinstance(key, float) and key.is_integer() and int(key) in self
        return place < self._size and self._at[place] == key

    @overload  # type: ignore[override]
    def __getitem__(self, place: SupportsIndex) -> int: ...

    @overload
    def __getitem__(self, place: slice) -> NDArray[numpy.unsignedinteger]: ...

    def __getitem__(self, place):
        """The key at a place, as an int, or those of a slice, as a read-only array."""
        if isinstance(place, slice):
            return self._row[place]
        try:
            place = index(place)
        except TypeError:
            raise TypeError(
                f"a place is a whole number or a slice, and this is of type {type_name(place)}"
            ) from None
        if not -self._size <= place < self._size:
            raise IndexError(f"there are {self._size} keys, and none at place {place}")
        return self._at[place % self._size]

    def __iter__(self) -> Iterator[int]:
        for start in range(0, self._size, _BLOCK):
            yield from self._row[start : start + _BLOCK].tolist()

    def __reversed__(self) -> Iterator[int]:
        for stop in range(self._size, 0, -_BLOCK):
            yield from self._row[max(stop - _BLOCK, 0) : stop][::-1].tolist()

    def __array__(self, dtype=None, copy=None) -> numpy.ndarray:
        if copy:
            return numpy.array(self._row, dtype)
        return numpy.asarray(self._row, dtype)

    def __reduce__(self):
        return _again, (self._row, self._hints)

    def __repr__(self) -> str:
        shown = ", ".join(map(str, self._row[:6].tolist()))
        return f"SortedKeys([{shown}{', ...' if self._size > 6 else ''}])"


def _places_by(call, questions: ArrayLike) -> NDArray[numpy.intp]:
    """The places that a call writes for questions."""
    row = words(questions, "questions")
    places = numpy.empty(len(row), numpy.intp)
    room = ffi.from_buffer("size_t[]", places, require_writable=True)
    number_of(call(words_at(row), len(row), room, len(row)))
    return places


def _again(row: numpy.ndarray, hints: numpy.ndarray) -> SortedKeys:
    """Keys that were pickled or copied."""
    return SortedKeys(row, hints, check=False)
