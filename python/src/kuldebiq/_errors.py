"""How a call is refused."""

from __future__ import annotations

from ._library import ffi, lib


class Refused(Exception):
    """A call was refused, and all is as it was.

    Each refusal is also a ``ValueError``, ``KeyError``, ``OverflowError`` or ``MemoryError``.
    A value of a wrong type raises a plain ``TypeError`` instead.

    Attributes
    ----------
    status : int or None
        The status of the C call, as its header numbers them; None if no C call was made.
    number : int or None
        The number that goes with the status.
    """

    def __init__(self, message: object, status: int | None = None, number: int | None = None):
        super().__init__(message)
        self.status = status
        self.number = number


class BadValue(Refused, ValueError):
    """A value that a call can't take, as keys that aren't sorted."""


class OutOfRange(Refused, OverflowError):
    """A number with more than 64 bits or a sign, or more keys than there can be."""


class OutOfMemory(Refused, MemoryError):
    """Memory wasn't found."""


class NoSuchKey(Refused, KeyError):
    """The map doesn't have the key."""


_CLASSES = {
    lib.KULDEBIQ_NO_MEMORY: OutOfMemory,
    lib.KULDEBIQ_TOO_MANY_KEYS: OutOfRange,
    lib.KULDEBIQ_FULL: OutOfRange,
}
_NUMBERS = {
    lib.KULDEBIQ_UNSORTED: "the one at place {}, from 0, is below the one before it; sort them",
    lib.KULDEBIQ_TOO_MANY_KEYS: "there are {}",
    lib.KULDEBIQ_EPSILON_TOO_GREAT: "it is {}",
    lib.KULDEBIQ_LEVELS_OUT_OF_RANGE: "{} were asked for",
    lib.KULDEBIQ_FULL: "of the entries that it accepts or accepted the number is {}",
    lib.KULDEBIQ_DIMS_OUT_OF_RANGE: "{} were given",
}


def refusal(status: int, number: int) -> Refused:
    """The error for a status other than "done"."""
    text = ffi.string(lib.kuldebiq_status_text(status)).decode()
    if status in _NUMBERS:
        text = f"{text}: {_NUMBERS[status].format(number)}"
    return _CLASSES.get(status, BadValue)(text, status, number)


def number_of(answer) -> int:
    """The number of a call that was done."""
    if answer.status:
        raise refusal(answer.status, answer.number)
    return answer.number
