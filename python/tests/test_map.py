"""`Map` beside sortedcontainers.SortedDict, in random lives."""

import copy
from array import array
from collections.abc import MutableMapping

import numpy
import pytest
from hypothesis import settings
from hypothesis import strategies as st
from hypothesis.stateful import RuleBasedStateMachine, invariant, rule

import kuldebiq
from kuldebiq import Map, Refused

SortedDict = pytest.importorskip("sortedcontainers").SortedDict
TOP = (1 << 64) - 1
few = st.integers(0, 30) | st.integers(TOP - 5, TOP)
words = few | st.integers(0, TOP)
pairs = st.lists(st.tuples(few, words), max_size=40)
updates = st.lists(
    st.tuples(st.just("put"), few, words)
    | st.tuples(st.just("del"), few)
    | st.tuples(st.just("sweep"), few, few),
    max_size=40,
)


class Lives(RuleBasedStateMachine):
    """A map of the fewest levels, which is compacted often, and a SortedDict beside it."""

    def __init__(self):
        super().__init__()
        self.made, self.wanted = Map(levels=1), SortedDict()

    def between(self, low, high):
        return list(self.wanted.irange(low, high)) if low <= high else []

    @rule(key=few, value=words)
    def put(self, key, value):
        self.made[key] = self.wanted[key] = value

    @rule(key=few)
    def take_out(self, key):
        assert self.made.discard(key) == (self.wanted.pop(key, None) is not None)

    @rule(key=few, default=words)
    def pop(self, key, default):
        assert self.made.pop(key, default) == self.wanted.pop(key, default)

    @rule(key=few, default=words)
    def set_default(self, key, default):
        assert self.made.setdefault(key, default) == self.wanted.setdefault(key, default)

    @rule(last=st.booleans())
    def pop_end(self, last):
        if self.wanted:
            assert (self.made.pop_last if last else self.made.pop_first)() == self.wanted.popitem(
                -1 if last else 0
            )
        else:
            with pytest.raises(KeyError):
                (self.made.pop_last if last else self.made.pop_first)()

    @rule(low=few, high=few)
    def sweep(self, low, high):
        swept = self.between(low, high)
        assert self.made.sweep(low, high) == len(swept)
        for key in swept:
            del self.wanted[key]

    @rule(some=pairs, form=st.sampled_from(["dict", "pairs", "rows", "map"]))
    def update(self, some, form):
        self.wanted.update(some)
        if form == "rows":
            self.made.update([key for key, _ in some], [value for _, value in some])
        else:
            self.made.update({"dict": dict, "pairs": list, "map": Map}[form](some))

    @rule(some=pairs)
    def load(self, some):
        self.wanted = SortedDict(some)
        self.made.load(some)

    @rule(some=updates)
    def apply(self, some):
        self.made.apply(some)
        for kind, low, *high in some:
            if kind == "put":
                self.wanted[low] = high[0]
            else:
                for key in self.between(low, high[0] if high else low):
                    del self.wanted[key]

    @rule()
    def clear(self):
        self.made.clear()
        self.wanted.clear()

    @rule()
    def compact(self):
        self.made.compact()
        assert self.made.accepted == len(self.wanted)

    @rule()
    def go_on_as_a_copy(self):
        self.made = copy.copy(self.made)

    @rule(key=words)
    def ask(self, key):
        assert self.made.get(key) == self.wanted.get(key)
        assert (key in self.made) == (key in self.wanted)
        above, below = self.between(key, TOP), self.between(0, key)
        assert self.made.next(key) == ((above[0], self.wanted[above[0]]) if above else None)
        assert self.made.previous(key) == ((below[-1], self.wanted[below[-1]]) if below else None)

    @rule(keys=st.lists(words, max_size=100))
    def ask_many(self, keys):
        values, present = self.made.get_many(keys)
        assert present.tolist() == [key in self.wanted for key in keys]
        assert values.tolist() == [self.wanted.get(key, 0) for key in keys]

    @rule(low=words, high=words)
    def go_through(self, low, high):
        wanted = [(key, self.wanted[key]) for key in self.between(low, high)]
        assert list(self.made.range(low, high)) == wanted
        assert list(self.made.range(low, high, reverse=True)) == wanted[::-1]
        assert self.made.count(low, high) == len(wanted)
        keys, values = self.made.arrays(low, high)
        assert list(zip(keys.tolist(), values.tolist())) == wanted

    @invariant()
    def holds_the_same(self):
        assert len(self.made) == len(self.wanted) and bool(self.made) == bool(self.wanted)
        assert list(self.made.items()) == list(self.wanted.items())
        ends = (self.wanted.peekitem(0), self.wanted.peekitem()) if self.wanted else (None, None)
        assert (self.made.first(), self.made.last()) == ends


TestLives = Lives.TestCase
TestLives.settings = settings(max_examples=60, stateful_step_count=40)


def test_it_is_a_mapping():
    made = Map({5: 50, 3: 30, 9: 90})
    assert isinstance(made, MutableMapping)
    assert made == {3: 30, 5: 50, 9: 90} and made != {3: 30} and made == Map(made)
    assert list(made) == [3, 5, 9] and list(reversed(made)) == [9, 5, 3]
    assert list(made.keys()) == [3, 5, 9] and list(reversed(made.keys())) == [9, 5, 3]
    assert list(made.values()) == [30, 50, 90] and list(reversed(made.values())) == [90, 50, 30]
    assert list(reversed(made.items())) == [(9, 90), (5, 50), (3, 30)]
    assert (5, 50) in made.items() and 50 in made.values() and 5 in made.keys()
    assert dict(made) == {3: 30, 5: 50, 9: 90} and made.keys() & {3, 4} == {3}
    assert repr(made) == "Map({3: 30, 5: 50, 9: 90})" and repr(Map()) == "Map({})"
    assert repr(Map(zip(range(9), range(9)))).endswith("5: 5, ...})")
    assert 5.0 in made and 5.5 not in made and "5" not in made and -1 not in made
    with pytest.raises(TypeError):
        hash(made)


def test_long_ranges_come_in_blocks():
    keys = numpy.arange(0, 3000, 3, dtype=numpy.uint64)
    made = Map(keys, keys)
    for high in (0, 765, 768, 771, 1533, 1536, TOP):
        wanted = [(key, key) for key in range(0, 3000, 3) if key <= high]
        assert list(made.range(0, high)) == wanted
    made[TOP] = 1
    assert list(made)[-1] == TOP and next(reversed(made)) == TOP


def test_what_isnt_there():
    made = Map({1: 10})
    for call in (lambda: made[2], lambda: made.pop(2), lambda: made.__delitem__(2)):
        with pytest.raises(KeyError) as refused:
            call()
        assert isinstance(refused.value, Refused) and refused.value.args == (2,)
    assert made.get(2) is None and made.get(2, 7) == 7 and made.pop(2, None) is None
    assert made.next(2) is None and made.previous(0) is None


BAD = [(-1, OverflowError), (1 << 64, OverflowError), (1.0, TypeError), ("1", TypeError),
       (None, TypeError)]


@pytest.mark.parametrize("bad, error", BAD)
def test_numbers_are_judged_at_the_call(bad, error):
    made = Map({1: 10})
    for call in (
        lambda: made[bad],
        lambda: made.get(bad),
        lambda: made.__setitem__(bad, 1),
        lambda: made.__setitem__(1, bad),
        lambda: made.discard(bad),
        lambda: made.pop(bad),
        lambda: made.next(bad),
        lambda: made.previous(bad),
        lambda: made.range(bad),
        lambda: made.range(0, bad),
        lambda: made.range(0, bad, reverse=True),
        lambda: made.count(bad),
        lambda: made.sweep(0, bad),
        lambda: made.arrays(bad),
        lambda: made.setdefault(1 << 40, bad),
        lambda: made.update({bad: 1}),
        lambda: made.update([1], [bad]),
        lambda: made.load([(1, bad)]),
        lambda: made.apply([("put", 1, bad)]),
        lambda: Map({1: bad}),
        lambda: Map(levels=bad) if error is TypeError else made[bad],
    ):
        with pytest.raises(error):
            call()
    assert made == {1: 10}


@pytest.mark.parametrize(
    "updates, error",
    [
        ([("put", 99)], ValueError),
        ([("put", 99, 1, 2)], ValueError),
        ([("sweep", 5)], ValueError),
        ([("del", 1, 9)], ValueError),
        ([("set", 1, 9)], ValueError),
        ([()], TypeError),
        (["put"], TypeError),
        ([5], TypeError),
        (5, TypeError),
    ],
)
def test_an_update_has_its_length(updates, error):
    made = Map({1: 10})
    with pytest.raises(error):
        made.apply(updates)
    with pytest.raises(error):
        made.apply([("del", 1)] + updates if isinstance(updates, list) else updates)
    assert made == {1: 10}


@pytest.mark.parametrize(
    "arguments, error",
    [
        (([1, 2], [1]), ValueError),
        (([(1, 2, 3)],), TypeError),
        (([1],), TypeError),
        ((5,), TypeError),
        (("12",), TypeError),
        ((numpy.array([1, 2]),), TypeError),
        ((numpy.array([[1, 2, 3]]),), TypeError),
        ((numpy.array([[1.0, 2.0]]),), TypeError),
    ],
)
def test_pairs_are_judged(arguments, error):
    made = Map({1: 10})
    for call in (Map, made.update, made.load):
        with pytest.raises(error):
            call(*arguments)
    assert made == {1: 10}


def test_columns():
    pandas = pytest.importorskip("pandas")
    frame = pandas.DataFrame({"key": [5, 3, 5], "value": [1, 2, 3]})
    assert Map(frame["key"], frame["value"]) == Map(frame) == {3: 2, 5: 3}
    assert Map(frame.to_numpy()) == {3: 2, 5: 3}
    assert Map(array("Q", [5, 3]), array("q", [1, 2])) == {3: 2, 5: 1}
    with pytest.raises(TypeError, match="shape"):
        Map(frame["key"])
    with pytest.raises(OverflowError):
        Map(-frame)


def test_a_full_map_is_compacted():
    made = Map(levels=1)
    for turn in range(10):
        for key in range(60):
            made[key] = turn
    assert made.levels == 1 and len(made) == 60
    for key in range(1000):
        made[key] = key
    assert len(made) == 1000 and made.levels > 3
    made.update(range(100_000), range(100_000))
    assert len(made) == 100_000
    assert made.sweep(10, 99_989) == 99_980 and len(made) == 20


def test_taking_from_both_ends():
    made, wanted = Map(range(10_000), range(10_000)), list(range(10_000))
    made.sweep(2000, 2999)
    del wanted[2000:3000]
    while wanted:
        for _ in range(min(300, len(wanted))):
            assert made.pop_first() == (wanted[0], wanted.pop(0))
        for _ in range(min(200, len(wanted))):
            assert made.pop_last() == (wanted[-1], wanted.pop())
        if wanted:
            # Below what was taken, and above.
            wanted = [0, *wanted, TOP]
            made[0], made[TOP] = 0, TOP
            assert made.pop_last() == (TOP, wanted.pop()) and made.first() == (0, 0)
            assert made.pop_first() == (0, wanted.pop(0)) and made.last() == (wanted[-1],) * 2
    assert not made and made.first() is None and made.last() is None
    for key in (-1, 1 << 64):
        with pytest.raises(OverflowError):
            made[key] = 1
    for pop in (made.pop_first, made.pop_last, made.popitem):
        with pytest.raises(KeyError, match="the map is empty"):
            pop()
    made.apply([("del", 3), ("put", 7, 1)])
    assert made.first() == made.last() == (7, 1)
    made.load([(TOP, 1), (0, 2)])
    assert made.pop_last() == (TOP, 1) and made.pop_last() == (0, 2) and not made
    made.update({0: 1, TOP: 2})
    assert made.pop_first() == (0, 1) and made.pop_first() == (TOP, 2) and not made
    made.clear()
    made[5] = 6
    assert made.copy().pop_first() == (5, 6) and made.last() == (5, 6)


def test_a_map_may_be_full():
    made = Map(levels=1, auto_compact=False)
    assert made.capacity == 127 and made.accepted == 0
    made.update(range(127), range(127))
    for call in (
        lambda: made.__setitem__(1, 2),
        lambda: made.discard(1),
        made.pop_first,
        made.pop_last,
        lambda: made.apply([("put", 1, 2)]),
        lambda: made.load(range(128), range(128)),
    ):
        with pytest.raises(OverflowError) as refused:
            call()
        assert isinstance(refused.value, Refused)
    assert made.accepted == 127 and made == dict(zip(range(127), range(127)))
    made.compact(levels=2)
    made[1] = 2
    assert made.levels == 2 and made[1] == 2
    with pytest.raises(ValueError):
        made.compact(levels=27)
    for levels in (0, 27, 1 << 40, -1):
        with pytest.raises(ValueError):
            Map(levels=levels)


def test_version():
    assert isinstance(kuldebiq.__version__, str)
