"""An ordered map of whole numbers to whole numbers."""

from __future__ import annotations

from array import array
from collections.abc import (
    ItemsView,
    Iterable,
    Iterator,
    KeysView,
    Mapping,
    MutableMapping,
    ValuesView,
)
from itertools import islice
from operator import index
from threading import RLock
from typing import SupportsIndex, Tuple, Union

import numpy
from numpy.typing import ArrayLike, NDArray

from ._errors import BadValue, NoSuchKey, number_of
from ._library import WORD_MAX, ffi, lib, new_handle, record_of
from ._numbers import half, type_name, word, words

__all__ = ["Map"]

_get = lib.kuldebiq_map_get
_put = lib.kuldebiq_map_put
_del = lib.kuldebiq_map_del
_ABSENT = lib.KULDEBIQ_ABSENT
_FULL = lib.KULDEBIQ_FULL
_MOST_LEVELS = 26
_BLOCK = 256
_MISSING = object()

Pairs = Union[Mapping[int, int], Iterable[Tuple[int, int]], ArrayLike]

_UPDATE = record_of("kuldebiq_update")
_KINDS = {
    "put": (lib.KULDEBIQ_PUT, ("key", "value")),
    "del": (lib.KULDEBIQ_DEL, ("key",)),
    "sweep": (lib.KULDEBIQ_SWEEP, ("low", "high")),
}


def _capacity(levels: int) -> int:
    """How many entries a map of so many levels accepts."""
    return (64 << levels) - 1


def _levels_for(keys: int, entries: int, levels: int) -> int:
    """At least so many levels, with room for as many entries again as are there or come."""
    while levels < _MOST_LEVELS and _capacity(levels) < 2 * (keys + entries):
        levels += 1
    return levels


def _columns(pairs, values) -> tuple[numpy.ndarray, numpy.ndarray]:
    """Keys and values as rows of the same length: of two rows, a mapping, a table or pairs."""
    if values is not None:
        columns = words(pairs, "keys"), words(values, "values")
        if len(columns[0]) != len(columns[1]):
            raise BadValue(f"there are {len(columns[0])} keys and {len(columns[1])} values")
        return columns
    if isinstance(pairs, Map):
        return pairs.arrays()
    if isinstance(pairs, Mapping):
        return words(list(pairs.keys())), words(list(pairs.values()), "values")
    if hasattr(pairs, "__array__"):
        return _columns_of_table(pairs)
    return _columns_of_pairs(pairs)


def _columns_of_table(table) -> tuple[numpy.ndarray, numpy.ndarray]:
    rows = numpy.asarray(table)
    if rows.ndim != 2 or rows.shape[1] != 2:
        raise TypeError(
            f"pairs are two columns, and this {type_name(table)} has the shape {rows.shape}:"
            " write the keys and the values as two arguments"
        )
    return words(rows[:, 0], "keys"), words(rows[:, 1], "values")


def _columns_of_pairs(pairs) -> tuple[numpy.ndarray, numpy.ndarray]:
    keys, values = array("Q"), array("Q")
    try:
        pairs = iter(pairs)
    except TypeError:
        raise TypeError(f"pairs are (key, value), ..; this is of type {type_name(pairs)}") from None
    for place, pair in enumerate(pairs):
        try:
            key, value = pair
        except (TypeError, ValueError):
            raise TypeError(f"a pair is (key, value), and number {place} is {pair!r}") from None
        keys.append(word(key, "a key"))
        values.append(word(value, "a value"))
    return words(keys), words(values)


def _rising(keys: numpy.ndarray, values: numpy.ndarray) -> tuple[numpy.ndarray, numpy.ndarray]:
    """The pairs by rising key. Of equal keys the last one counts, as in a dict."""
    if (keys[1:] > keys[:-1]).all():
        return keys, values
    order = numpy.argsort(keys, kind="stable")
    keys, values = keys[order], values[order]
    is_last = numpy.append(keys[1:] != keys[:-1], True)
    return keys[is_last], values[is_last]


def _update_of(place: int, update) -> tuple[int, int, int]:
    """An update as C has it: its kind and two numbers."""
    if not isinstance(update, (tuple, list)) or not update:
        raise TypeError(
            f"an update is ('put', key, value), ('del', key) or ('sweep', low, high), and number"
            f" {place} is {update!r}"
        )
    kind, *numbers = update
    if kind not in _KINDS:
        raise BadValue(f"an update is a put, a del or a sweep, and number {place} is {update!r}")
    code, names = _KINDS[kind]
    if len(numbers) != len(names):
        raise BadValue(
            f"a {kind} is ({kind!r}, {', '.join(names)}), and number {place} is {update!r}"
        )
    numbers = [word(number, f"the {name} of a {kind}") for number, name in zip(numbers, names)]
    return code, numbers[0], numbers[-1]


class Map(MutableMapping[int, int]):
    """An ordered map whose keys and values are whole numbers from 0 to 2^64 - 1.

    A ``MutableMapping`` by rising key. Ranges have both ends included.

    A map has room for ``64 * 2**levels - 1`` entries. Each put and each deletion is one, whatever
    was at the key, and a sweep is one for each key that it takes out. A full map compacts itself:
    it is rebuilt from its pairs, which takes as long as loading them, and gets more levels if they
    fill more than half of it.

    Threads may share a map. Each call waits until no other one uses the map, and is done as a
    whole; a range is a call for each of its blocks. A child that is forked while another thread
    uses a map must not use that map.

    Parameters
    ----------
    pairs : mapping, iterable of pairs, or array_like, shape (n, 2) or (n,), optional
        The first pairs, in any order; of equal keys the last one counts. Of shape (n,) they are
        the keys, and `values` goes with them.
    values : array_like, shape (n,), optional
        The values of the keys.
    levels : int, optional
        1 to 26.
    auto_compact : bool, optional
        If False, a full map refuses each update with an ``OverflowError`` until `compact` makes
        room.

    Raises
    ------
    TypeError, OverflowError
        If a key or a value isn't a whole number from 0 to 2^64 - 1, or there are too many pairs.
    ValueError
        If there are not 1 to 26 levels, or not as many keys as values.
    MemoryError
        If there is no memory.

    Examples
    --------
    >>> import kuldebiq
    >>> squares = kuldebiq.Map({3: 9, 1: 1, 2: 4})
    >>> squares[10] = 100
    >>> list(squares.range(2, 9)), squares.next(4), squares.previous(4)
    ([(2, 4), (3, 9)], (10, 100), (3, 9))
    """

    # No key is below _low or above _high: the searches at both ends go on from there, past no key
    # that was taken.
    __slots__ = ("_handle", "_lock", "_length", "_low", "_high", "auto_compact", "__weakref__")

    def __init__(
        self,
        pairs: Pairs = (),
        values: ArrayLike | None = None,
        *,
        levels: int = 20,
        auto_compact: bool = True,
    ):
        self._handle = new_handle("kuldebiq_map *", lib.kuldebiq_map_free)
        self._lock = RLock()
        self._length: int | None = 0
        self.auto_compact = auto_compact
        self.load(pairs, values, levels=half(levels, "levels"))

    # ---- The calls ----

    def _ask(self, call, *arguments) -> int:
        """The number of a call that changes nothing."""
        with self._lock:
            return number_of(call(self._handle, *arguments))

    def _change(self, call, *arguments, entries: int = 1) -> int:
        """The number of a call that brings entries. A map without room for them is compacted."""
        with self._lock:
            answer = call(self._handle, *arguments)
            if answer.status == _FULL and self.auto_compact:
                levels = _levels_for(len(self), entries, self.levels)
                number_of(lib.kuldebiq_map_compact(self._handle, levels))
                answer = call(self._handle, *arguments)
            number = number_of(answer)
            self._length = None
        return number

    def _pair(self, call, key: SupportsIndex) -> tuple[int, int] | None:
        """The pair that a call finds from a key on."""
        found = ffi.new("kuldebiq_pair *")
        with self._lock:
            answer = call(self._handle, word(key), found)
        if answer.status == _ABSENT:
            return None
        number_of(answer)
        return found.key, found.value

    # ---- One key ----

    def _look_up(self, key):
        """What the library answers for a key."""
        try:
            with self._lock:
                return _get(self._handle, index(key))
        except (TypeError, OverflowError):
            word(key)
            raise

    def __getitem__(self, key: SupportsIndex) -> int:
        answer = self._look_up(key)
        if answer.status == _ABSENT:
            raise NoSuchKey(key, answer.status, answer.number)
        return number_of(answer)

    def get(self, key: SupportsIndex, default=None):
        """Return the value at a key, or the default if it isn't there."""
        answer = self._look_up(key)
        return default if answer.status == _ABSENT else number_of(answer)

    def get_many(self, keys: ArrayLike) -> tuple[NDArray[numpy.uint64], NDArray[numpy.bool_]]:
        """The values at many keys, at one time, and which of the keys are there.

        Parameters
        ----------
        keys : array_like, shape (n,)
            Keys in any order.

        Returns
        -------
        values : numpy.ndarray of uint64, shape (n,)
            The value at each key, and 0 for one that isn't there.
        present : numpy.ndarray of bool, shape (n,)
        """
        keys = words(keys)
        values = numpy.empty(len(keys), numpy.uint64)
        present = numpy.empty(len(keys), numpy.bool_)
        self._ask(
            lib.kuldebiq_map_get_many,
            ffi.from_buffer("uint64_t[]", keys),
            len(keys),
            ffi.from_buffer("uint64_t[]", values),
            len(values),
            ffi.from_buffer("uint8_t[]", present),
            len(present),
        )
        return values, present

    def __contains__(self, key: object) -> bool:
        try:
            return self._look_up(key).status != _ABSENT
        except (TypeError, OverflowError):
            return isinstance(key, float) and key.is_integer() and int(key) in self

    def __setitem__(self, key: SupportsIndex, value: SupportsIndex) -> None:
        try:
            with self._lock:
                self._length = None
                at = index(key)
                # First, so that an interrupt behind the put leaves nothing untrue.
                if at < self._low:
                    self._low = max(at, 0)
                if at > self._high:
                    self._high = min(at, WORD_MAX)
                answer = _put(self._handle, at, index(value))
        except (TypeError, OverflowError):
            word(key), word(value, "a value")
            raise
        if answer.status:
            # A map that is full gets room, and any other refusal comes again.
            self._change(_put, index(key), index(value))

    def discard(self, key: SupportsIndex) -> bool:
        """Take a key out, and return whether it was there. Either way it is an entry."""
        key = word(key)
        with self._lock:
            length = self._length
            was_there = self._change(_del, key)
            if length is not None:
                self._length = length - was_there
        return was_there == 1

    def __delitem__(self, key: SupportsIndex) -> None:
        if not self.discard(key):
            raise NoSuchKey(key, _ABSENT, 0)

    def pop(self, key: SupportsIndex, default=_MISSING):
        """Take a key out and return its value, or the default if it isn't there."""
        with self._lock:
            try:
                value = self[key]
            except KeyError:
                if default is _MISSING:
                    raise
                return default
            del self[key]
        return value

    def setdefault(  # type: ignore[override]
        self, key: SupportsIndex, default: SupportsIndex
    ) -> int:
        """Return the value at a key, after putting the default there if there was none."""
        with self._lock:
            if key not in self:
                self[key] = default
            return self[key]

    # ---- In order ----

    def next(self, key: SupportsIndex = 0) -> tuple[int, int] | None:
        """The least key that is at least the given one, with its value, or None."""
        return self._pair(lib.kuldebiq_map_next, key)

    def previous(self, key: SupportsIndex = WORD_MAX) -> tuple[int, int] | None:
        """The greatest key that is at most the given one, with its value, or None."""
        return self._pair(lib.kuldebiq_map_previous, key)

    def first(self) -> tuple[int, int] | None:
        """The least key with its value, or None if the map is empty."""
        with self._lock:
            pair = self.next(self._low)
            if pair is not None:
                self._low = pair[0]
        return pair

    def last(self) -> tuple[int, int] | None:
        """The greatest key with its value, or None if the map is empty."""
        with self._lock:
            pair = self.previous(self._high)
            if pair is not None:
                self._high = pair[0]
        return pair

    def pop_first(self) -> tuple[int, int]:
        """Take out the least key, and return it with its value.

        Raises
        ------
        KeyError
            If the map is empty (also a ``Refused``).
        """
        with self._lock:
            pair = self._taken(self.first())
            self._low = min(pair[0] + 1, WORD_MAX)
        return pair

    def pop_last(self) -> tuple[int, int]:
        """Take out the greatest key, and return it with its value.

        Raises
        ------
        KeyError
            If the map is empty (also a ``Refused``).
        """
        with self._lock:
            pair = self._taken(self.last())
            self._high = max(pair[0] - 1, 0)
        return pair

    popitem = pop_last

    def _taken(self, pair: tuple[int, int] | None) -> tuple[int, int]:
        """A pair that was found at an end, and is taken out."""
        if pair is None:
            raise NoSuchKey("the map is empty", _ABSENT, 0)
        del self[pair[0]]
        return pair

    def range(
        self, low: SupportsIndex = 0, high: SupportsIndex = WORD_MAX, *, reverse: bool = False
    ) -> Iterator[tuple[int, int]]:
        """The pairs from low to high, both included, by rising key, or by falling key.

        Rising, they come in blocks of 256, each as the map is when the first of it is taken;
        falling, one by one, which takes longer.
        """
        low, high = word(low, "low"), word(high, "high")
        return self._downwards(low, high) if reverse else self._upwards(low, high)

    def _upwards(self, low: int, high: int) -> Iterator[tuple[int, int]]:
        room = numpy.empty((_BLOCK, 2), numpy.uint64)
        at = ffi.from_buffer("kuldebiq_pair[]", room)
        count = _BLOCK
        while low <= high and count == _BLOCK:
            count = self._ask(lib.kuldebiq_map_range, low, high, at, _BLOCK)
            block = room[:count].tolist()
            yield from map(tuple, block)
            low = block[-1][0] + 1 if block else low

    def _downwards(self, low: int, high: int) -> Iterator[tuple[int, int]]:
        pair = self.previous(high)
        while pair is not None and pair[0] >= low:
            yield pair
            pair = self.previous(pair[0] - 1) if pair[0] > 0 else None

    def arrays(
        self, low: SupportsIndex = 0, high: SupportsIndex = WORD_MAX
    ) -> tuple[NDArray[numpy.uint64], NDArray[numpy.uint64]]:
        """The keys from low to high, both included, and their values, at one time.

        Returns
        -------
        keys, values : numpy.ndarray of uint64, shape (n,)
        """
        low, high = word(low, "low"), word(high, "high")
        with self._lock:
            room = numpy.empty((self.count(low, high), 2), numpy.uint64)
            at = ffi.from_buffer("kuldebiq_pair[]", room)
            number_of(lib.kuldebiq_map_range(self._handle, low, high, at, len(room)))
        return room[:, 0].copy(), room[:, 1].copy()

    def count(self, low: SupportsIndex = 0, high: SupportsIndex = WORD_MAX) -> int:
        """How many keys there are from low to high, both included. It goes along them."""
        return self._ask(lib.kuldebiq_map_count, word(low, "low"), word(high, "high"))

    def __len__(self) -> int:
        """How many keys there are. It counts them again if keys were put since it last did."""
        with self._lock:
            if self._length is None:
                self._length = self.count()
            return self._length

    def __bool__(self) -> bool:
        return self.first() is not None

    def __iter__(self) -> Iterator[int]:
        return (key for key, _ in self.range())

    def __reversed__(self) -> Iterator[int]:
        return (key for key, _ in self.range(reverse=True))

    def keys(self) -> KeysView[int]:
        """The keys, rising: a view."""
        return _Keys(self)

    def values(self) -> ValuesView[int]:
        """The values, by rising key: a view."""
        return _Values(self)

    def items(self) -> ItemsView[int, int]:
        """The pairs, by rising key: a view."""
        return _Items(self)

    def __repr__(self) -> str:
        pairs = list(islice(self.range(), 7))
        shown = ", ".join(f"{key}: {value}" for key, value in pairs[:6])
        return f"Map({{{shown}{', ...' if len(pairs) > 6 else ''}}})"

    # ---- Many at once ----

    def load(
        self, pairs: Pairs = (), values: ArrayLike | None = None, *, levels: int | None = None
    ) -> None:
        """Replace all pairs of the map by these.

        Parameters and errors are those of ``Map``. If `levels` is None, the map keeps its levels.
        In either case a map that compacts itself gets more if the pairs fill more than half of it.
        If the call is refused, the map is as it was.
        """
        keys, values = _rising(*_columns(pairs, values))
        room = numpy.column_stack((keys, values))
        at = ffi.from_buffer("kuldebiq_pair[]", room)
        with self._lock:
            wanted = half(self.levels if levels is None else levels, "levels")
            if self.auto_compact and 0 < wanted <= _MOST_LEVELS:
                wanted = _levels_for(len(keys), 0, wanted)
            number_of(lib.kuldebiq_map_load(self._handle, wanted, at, len(room)))
            self._length, self._low, self._high = len(room), 0, WORD_MAX

    def update(  # type: ignore[override]
        self, pairs: Pairs = (), values: ArrayLike | None = None
    ) -> None:
        """Put many pairs, all or none: a mapping, pairs, or keys and their values.

        Parameters and errors are those of ``Map``.
        """
        keys, values = _columns(pairs, values)
        updates = numpy.zeros(len(keys), _UPDATE)
        updates["kind"], updates["key"], updates["value"] = lib.KULDEBIQ_PUT, keys, values
        self._apply(updates)

    def apply(self, updates: Iterable[tuple]) -> None:
        """Take many updates in order, all or none.

        Parameters
        ----------
        updates : iterable of tuple
            ``("put", key, value)``, ``("del", key)`` or ``("sweep", low, high)``.

        Raises
        ------
        ValueError
            If an update is of another kind or length (also a ``Refused``).
        TypeError, OverflowError, MemoryError
            As ``Map`` says.
        """
        rows = [_update_of(place, update) for place, update in enumerate(updates)]
        self._apply(numpy.array(rows, dtype=_UPDATE))

    def _apply(self, updates: numpy.ndarray) -> None:
        at = ffi.from_buffer("kuldebiq_update[]", updates)
        with self._lock:
            if len(updates):
                self._low = min(self._low, int(updates["key"].min()))
                self._high = max(self._high, int(updates["key"].max()))
            self._change(lib.kuldebiq_map_apply, at, len(updates), entries=len(updates))

    def sweep(self, low: SupportsIndex, high: SupportsIndex) -> int:
        """Take out the keys from low to high, both included, and return how many they were."""
        return self._change(lib.kuldebiq_map_sweep, word(low, "low"), word(high, "high"))

    def clear(self) -> None:
        """Take out all keys. The map has as many levels as before, and no entry."""
        with self._lock:
            number_of(lib.kuldebiq_map_new(self._handle, self.levels))
            self._length, self._low, self._high = 0, 0, WORD_MAX

    def copy(self) -> Map:
        """A map of its own with the same pairs."""
        with self._lock:
            return Map(self, levels=self.levels, auto_compact=self.auto_compact)

    def __reduce__(self):
        with self._lock:
            keys, values = self.arrays()
            return _again, (keys, values, self.levels, self.auto_compact)

    # ---- Room ----

    @property
    def levels(self) -> int:
        """How many levels there are, 1 to 26."""
        return (self.capacity + 1).bit_length() - 7

    @property
    def capacity(self) -> int:
        """How many entries there is room for, those that were accepted included."""
        return self._ask(lib.kuldebiq_map_capacity)

    @property
    def accepted(self) -> int:
        """How many entries were accepted since the map was made or last compacted."""
        return self._ask(lib.kuldebiq_map_accepted)

    def compact(self, levels: int | None = None) -> None:
        """Rebuild the map from its pairs: an entry stays for each of them, and no other.

        Parameters
        ----------
        levels : int, optional
            1 to 26; as many as there are if None.

        Raises
        ------
        OverflowError, ValueError, MemoryError
            If so many levels can't accept the pairs, or there are not 1 to 26, or no memory is
            found. Then the map is as it was.
        """
        with self._lock:
            wanted = half(self.levels if levels is None else levels, "levels")
            number_of(lib.kuldebiq_map_compact(self._handle, wanted))


def _again(keys, values, levels: int, auto_compact: bool) -> Map:
    """A map that was pickled or copied."""
    return Map(keys, values, levels=levels, auto_compact=auto_compact)


class _Keys(KeysView):
    _mapping: Map

    def __reversed__(self) -> Iterator[int]:
        return reversed(self._mapping)


class _Items(ItemsView):
    _mapping: Map

    def __iter__(self) -> Iterator[tuple[int, int]]:
        return self._mapping.range()

    def __reversed__(self) -> Iterator[tuple[int, int]]:
        return self._mapping.range(reverse=True)


class _Values(ValuesView):
    _mapping: Map

    def __iter__(self) -> Iterator[int]:
        return (value for _, value in self._mapping.range())

    def __reversed__(self) -> Iterator[int]:
        return (value for _, value in self._mapping.range(reverse=True))
