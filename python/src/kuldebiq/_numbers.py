"""What callers give, as the unsigned 64-bit numbers that the library takes."""

from __future__ import annotations

import mmap
from array import array
from collections.abc import Mapping, Set
from numbers import Number
from operator import index

import numpy

from ._errors import BadValue, OutOfRange
from ._library import WORD_MAX

_BYTES = (bytes, bytearray, mmap.mmap)
# What to write for an array of such a kind.
_INSTEAD = {
    "b": ".astype('uint64')",
    "f": ".astype('uint64') if each is whole and none is missing, or scale and round them first",
    "M": ".astype('int64')",
    "m": ".astype('int64')",
    "O": ".astype('uint64') if all are whole numbers",
}


def type_name(value: object) -> str:
    kind = type(value)
    module = "" if kind.__module__ == "builtins" else kind.__module__ + "."
    return module + kind.__qualname__


def word(number, what: str = "a key") -> int:
    """A whole number from 0 to 2^64 - 1, from anything that is one."""
    try:
        number = index(number)
    except TypeError:
        instead = "" if hasattr(number, "__len__") or number is None else ": write int(..)"
        raise TypeError(
            f"{what} is a whole number, and this is of type {type_name(number)}{instead}"
        ) from None
    if not 0 <= number <= WORD_MAX:
        raise OutOfRange(f"{what} is from 0 to 2^64 - 1, and this is {number}")
    return number


def half(number, what: str) -> int:
    """A whole number as 32 bits. The library refuses a longer one as it refuses the greatest."""
    try:
        return min(word(number, what), (1 << 32) - 1)
    except OverflowError:
        raise BadValue(f"{what} can't be {number}") from None


def words(values, what: str = "keys") -> numpy.ndarray:
    """A row of numbers as ``uint64``: where they lie, if they can stay there."""
    return _unsigned(whole_numbers(values, what), what, numpy.uint64)


def words_or_halves(values, what: str = "keys") -> numpy.ndarray:
    """A row of numbers as ``uint32`` if their type has at most 32 bits, and else as ``uint64``."""
    row = whole_numbers(values, what)
    return _unsigned(row, what, numpy.uint32 if row.itemsize <= 4 else numpy.uint64)


def whole_numbers(values, what: str) -> numpy.ndarray:
    """A row of whole numbers, with a sign or without one, where they lie."""
    row = _array_of(values, what)
    if row.ndim != 1:
        raise TypeError(
            f"{what} are one row, and this {type_name(values)} has {row.ndim} dimensions"
        )
    kind = row.dtype.kind
    if kind not in "ui":
        instead = f": write {_INSTEAD[kind]}" if kind in _INSTEAD else ""
        raise TypeError(
            f"{what} are whole numbers, and this {type_name(values)} has {row.dtype}{instead}"
        )
    return row


def _unsigned(row: numpy.ndarray, what: str, dtype) -> numpy.ndarray:
    """Whole numbers as unsigned ones in one piece: where they lie, if they can stay there."""
    if row.dtype.kind == "i" and row.size > 0:
        least = row.min()
        if least < 0:
            raise OutOfRange(f"{what} are from 0 to 2^64 - 1, and the least of these is {least}")
    if row.dtype.kind == "i" and row.dtype.isnative and row.flags.c_contiguous:
        row = row.view(f"u{row.itemsize}")
    return numpy.require(row, dtype, ["C_CONTIGUOUS", "ALIGNED"])


def _array_of(values, what: str) -> numpy.ndarray:
    """Values as an array, without a copy where they have one to show."""
    if isinstance(values, _BYTES) or _is_view_of_bytes(values):
        raise TypeError(
            f"{what} are numbers, and this is of type {type_name(values)}:"
            " write numpy.frombuffer(.., dtype='<u8')"
        )
    if isinstance(values, (str, Set, Mapping)):
        raise TypeError(
            f"{what} are a row of numbers, and this is of type {type_name(values)}:"
            " write sorted(..)"
        )
    if isinstance(values, numpy.ma.MaskedArray) and numpy.ma.is_masked(values):
        raise TypeError(f"{what} are numbers, and some of these are masked: write .compressed()")
    nullable = getattr(getattr(values, "dtype", None), "numpy_dtype", None)
    if nullable is not None and hasattr(values, "to_numpy"):
        return _without_missing(values, nullable, what)
    if hasattr(values, "__array__") or isinstance(values, (array, memoryview)):
        return numpy.asarray(values)
    if _has_buffer(values):
        return numpy.asarray(memoryview(values))
    return _array_of_items(values, what)


def _without_missing(column, dtype, what: str) -> numpy.ndarray:
    """A column of pandas whose values may be missing, where none is."""
    if column.isna().any():
        raise TypeError(f"{what} are numbers, and some of this column are missing: write .dropna()")
    return column.to_numpy(dtype=dtype)


def _is_view_of_bytes(values) -> bool:
    return isinstance(values, memoryview) and values.format in ("B", "b", "c")


def _has_buffer(values) -> bool:
    try:
        memoryview(values).release()
    except TypeError:
        return False
    return True


def _array_of_items(values, what: str) -> numpy.ndarray:
    """The numbers of a list or of another iterable."""
    try:
        items = iter(values)
    except TypeError:
        instead = ": write [..]" if isinstance(values, Number) else ""
        raise TypeError(
            f"{what} are a row of numbers, and this is of type {type_name(values)}{instead}"
        ) from None
    items = values if isinstance(values, (list, tuple, range)) else list(items)
    try:
        row = array("Q", items)
    except (TypeError, OverflowError):
        for item in items:
            word(item, f"each of the {what}")
        raise
    return numpy.frombuffer(row, dtype=numpy.uint64) if items else numpy.empty(0, numpy.uint64)
