"""`SortedKeys` beside bisect and numpy.searchsorted, over whatever holds numbers."""

import bisect
import ctypes
import gc
import mmap
import random
from array import array
from collections.abc import Sequence

import numpy
import pytest
from hypothesis import given
from hypothesis import strategies as st

import kuldebiq
from kuldebiq import SortedKeys

TOP = (1 << 64) - 1
words = st.integers(0, TOP) | st.integers(0, 40) | st.integers(TOP - 40, TOP)
rows = st.lists(words, max_size=200).map(sorted)
PRIMES = [2, 3, 5, 7, 11, 13, 17, 19, 23, 29]


def random_keys(count, seed=5):
    chance = random.Random(seed)
    return sorted(chance.randrange(1 << 64) for _ in range(count))


@given(rows, st.lists(words, max_size=50), st.sampled_from([0, 1, 64]))
def test_positions_are_those_of_bisect(row, questions, epsilon):
    keys = SortedKeys(row, epsilon=epsilon)
    questions = questions + row[:20] + [0, TOP]
    left = [bisect.bisect_left(row, question) for question in questions]
    assert [keys.position(question) for question in questions] == left
    assert keys.positions(questions).tolist() == left
    right = [bisect.bisect_right(row, question) for question in questions]
    assert [keys.position_after(question) for question in questions] == right
    assert keys.positions_after(questions).tolist() == right
    assert [question in keys for question in questions] == [q in row for q in questions]


short = st.integers(0, (1 << 32) - 1) | st.integers(0, 40) | st.integers((1 << 32) - 40, 1 << 32)


@given(
    st.lists(st.integers(0, (1 << 32) - 1) | st.integers(0, 40), max_size=200).map(sorted),
    st.lists(words | short, max_size=50),
    st.sampled_from(["made", "none", "of 64 bits"]),
)
def test_keys_of_32_bits_are_asked_as_those_of_64(row, questions, hints):
    given_hints = {"made": None, "none": [], "of 64 bits": SortedKeys(row).hints}[hints]
    keys = SortedKeys(numpy.array(row, numpy.uint32), given_hints)
    questions = questions + row[:20] + [(1 << 32) - 1, 1 << 32, TOP]
    left = [bisect.bisect_left(row, question) for question in questions]
    assert [keys.position(question) for question in questions] == left
    assert keys.positions(questions).tolist() == left
    right = [bisect.bisect_right(row, question) for question in questions]
    assert [keys.position_after(question) for question in questions] == right
    assert keys.positions_after(questions).tolist() == right
    assert [question in keys for question in questions] == [q in row for q in questions]
    assert list(keys) == row and keys[:].dtype == numpy.uint32
    assert keys.hints.tolist() == SortedKeys(row).hints.tolist() or hints == "none"


@given(rows, words, words)
def test_ranges_have_both_ends(row, low, high):
    keys = SortedKeys(row)
    wanted = [key for key in row if low <= key <= high]
    assert row[keys.range(low, high)] == wanted
    assert keys[keys.range(low, high)].tolist() == wanted
    assert keys.count(low, high) == len(wanted)
    assert keys.count(low) == row.count(low)


@given(rows)
def test_it_is_a_sequence(row):
    keys = SortedKeys(row)
    assert isinstance(keys, Sequence) and len(keys) == len(row)
    assert list(keys) == row and list(reversed(keys)) == row[::-1]
    assert [keys[place] for place in range(-len(row), len(row))] == row + row
    assert numpy.asarray(keys).tolist() == row
    for key in row[:20]:
        assert keys.index(key) == row.index(key)


def test_many_are_those_of_searchsorted():
    row = numpy.array(random_keys(30_000), dtype=numpy.uint64)
    questions = numpy.concatenate([row, row + numpy.uint64(1), row[::-1]])
    keys = SortedKeys(row)
    places = keys.positions(questions)
    assert places.dtype == numpy.intp
    assert (places == numpy.searchsorted(row, questions)).all()
    assert (keys.positions_after(questions) == numpy.searchsorted(row, questions, "right")).all()


def test_places_outside_are_refused_as_of_a_list():
    keys = SortedKeys(PRIMES)
    for place in (10, -11, TOP):
        with pytest.raises(IndexError):
            keys[place]
    with pytest.raises(IndexError):
        SortedKeys([])[0]
    with pytest.raises(TypeError, match="str"):
        keys["2"]
    with pytest.raises(ValueError):
        keys.index(4)
    with pytest.raises(ValueError):
        keys.index(2, 1)
    assert keys.index(29, -1) == 9


def test_what_is_in_keys():
    keys = SortedKeys(PRIMES)
    assert 7 in keys and 7.0 in keys and numpy.int8(7) in keys
    for other in (8, 7.5, -1, 1 << 64, "7", None, float("nan"), float("inf")):
        assert other not in keys


def test_shown():
    assert repr(SortedKeys([])) == "SortedKeys([])"
    assert repr(SortedKeys(PRIMES)) == "SortedKeys([2, 3, 5, 7, 11, 13, ...])"


def lies_in(part, whole):
    return numpy.shares_memory(numpy.asarray(part), numpy.asarray(whole))


@pytest.mark.parametrize(
    "row",
    [
        numpy.array(PRIMES, numpy.uint64),
        numpy.array(PRIMES, numpy.int64),
        numpy.array(PRIMES, numpy.uint32),
        numpy.array(PRIMES, numpy.int32),
        array("I", PRIMES),
        array("Q", PRIMES),
        memoryview(array("q", PRIMES)),
        numpy.array([0, *PRIMES], numpy.uint64)[1:],
    ],
)
def test_keys_stay_where_they_lie(row):
    keys = SortedKeys(row)
    assert list(keys) == PRIMES and lies_in(keys, row)
    with pytest.raises(ValueError):
        numpy.asarray(keys)[0] = 1


def odd_bytes():
    """Keys at an odd address."""
    room = numpy.zeros(8 * len(PRIMES) + 1, numpy.uint8)
    room[1:] = numpy.array(PRIMES, numpy.uint64).view(numpy.uint8)
    return room[1:].view(numpy.uint64)


@pytest.mark.parametrize(
    "row",
    [
        *(numpy.array(PRIMES, dtype) for dtype in ("u1", "u2", "i1", "i2", ">u4", ">u8", ">i4")),
        numpy.repeat(numpy.array(PRIMES, numpy.uint64), 2)[::2],
        odd_bytes(),
        array("B", PRIMES),
        tuple(PRIMES),
        (key for key in PRIMES),
        [numpy.uint64(key) for key in PRIMES],
        SortedKeys(PRIMES),
    ],
)
def test_other_whole_numbers_are_converted(row):
    assert list(SortedKeys(row)) == PRIMES


def test_columns_of_pandas():
    pandas = pytest.importorskip("pandas")
    for dtype in ("uint64", "int64", "uint32", "UInt64", "Int64", "Int32"):
        column = pandas.Series(PRIMES, dtype=dtype)
        keys = SortedKeys(column)
        assert list(keys) == PRIMES
        assert keys.positions(column).tolist() == list(range(10))
    column = pandas.Series(PRIMES, dtype="int64")
    assert lies_in(SortedKeys(column), column)
    assert list(SortedKeys(pandas.Index(PRIMES))) == PRIMES
    frame = pandas.DataFrame({"key": PRIMES, "square": [key * key for key in PRIMES]})
    between = frame.iloc[SortedKeys(frame["key"]).range(5, 12)]
    assert between["square"].tolist() == [25, 49, 121]


@pytest.mark.parametrize("dtype", ["Int64", "float64"])
def test_missing_values_are_refused(dtype):
    pandas = pytest.importorskip("pandas")
    with pytest.raises(TypeError, match="missing"):
        SortedKeys(pandas.Series([1, None, 3], dtype=dtype))


class Column:
    """What shows an array of itself, as a column of polars or Arrow does."""

    def __init__(self, row):
        self.row = numpy.array(row)

    def __array__(self, dtype=None, copy=None):
        return self.row if dtype is None else self.row.astype(dtype)


def test_what_shows_an_array_or_its_memory():
    column = Column(PRIMES)
    assert lies_in(SortedKeys(column), column.row)
    with pytest.raises(TypeError, match="Column has float64"):
        SortedKeys(Column([1.0, float("nan")]))
    memory = (ctypes.c_uint64 * 10)(*PRIMES)
    assert lies_in(SortedKeys(memory), memory)


def test_columns_of_polars_and_arrow():
    for name in ("polars", "pyarrow"):
        try:
            module = __import__(name)
        except ImportError:
            continue
        column = module.Series(PRIMES) if name == "polars" else module.array(PRIMES)
        assert list(SortedKeys(column)) == PRIMES


@pytest.mark.parametrize(
    "row, seen",
    [
        ([1, 2.5], "float"),
        ([1, "2"], "str"),
        ("123", "str"),
        (b"12345678", "bytes"),
        (bytearray(8), "bytearray"),
        (memoryview(bytes(8)), "memoryview"),
        ({1, 2}, "set"),
        ({1: 2}, "dict"),
        (5, "int"),
        (None, "NoneType"),
        (numpy.array([1.0]), "float64"),
        (numpy.array([True]), "bool"),
        (numpy.array([1, 2], object), "object"),
        (numpy.array(["2020-01-01"], "M8[ns]"), "datetime64"),
        (numpy.array([[1, 2]]), "2 dimensions"),
        (numpy.array(3), "0 dimensions"),
        (numpy.ma.array([1, 2], mask=[False, True]), "masked"),
    ],
)
def test_what_is_no_row_is_refused_by_its_type(row, seen):
    keys = SortedKeys(PRIMES)
    for call in (SortedKeys, keys.positions, lambda row: SortedKeys(PRIMES, hints=row)):
        if call in (SortedKeys, keys.positions) or not isinstance(row, (str, type(None))):
            with pytest.raises(TypeError, match=seen):
                call(row)


@pytest.mark.parametrize(
    "row", [[-1, 2], [1, 1 << 64], numpy.array([-1, 2]), numpy.array([-1], "i1"), array("q", [-1])]
)
def test_numbers_out_of_range_are_refused(row):
    for call in (SortedKeys, SortedKeys(PRIMES).positions):
        with pytest.raises(OverflowError) as refused:
            call(row)
        assert isinstance(refused.value, kuldebiq.Refused)


@pytest.mark.parametrize("ask", ["position", "position_after", "count", "range"])
def test_questions_are_judged(ask):
    ask = getattr(SortedKeys(PRIMES), ask)
    for question, error in [(-1, OverflowError), (1 << 64, OverflowError), (1.5, TypeError),
                            ("5", TypeError), (None, TypeError), (numpy.float32(2), TypeError)]:
        with pytest.raises(error) as refused:
            ask(question)
        assert str(question) in str(refused.value) or type(question).__name__ in str(refused.value)
    assert ask(numpy.uint64(5)) == ask(5) == ask(numpy.int8(5))


def test_keys_that_fall_are_refused():
    fallen = list(range(200_000))
    fallen[150_000] = 7
    for row in (fallen, numpy.array(fallen, numpy.uint32)):
        for words_given in ({}, {"hints": []}):
            with pytest.raises(ValueError, match="150000") as refused:
                SortedKeys(row, **words_given)
            assert isinstance(refused.value, kuldebiq.Refused) and refused.value.number == 150_000
    keys = SortedKeys(fallen, hints=[], check=False)
    place = keys.position(100)
    assert fallen[place - 1] < 100 <= fallen[place]


def test_epsilon_is_judged():
    for epsilon in (1_048_577, 1 << 40, 1 << 64, -1):
        with pytest.raises(ValueError):
            SortedKeys(PRIMES, epsilon=epsilon)
    with pytest.raises(TypeError):
        SortedKeys(PRIMES, epsilon=1.5)


@given(rows, st.lists(words, max_size=60), st.data())
def test_hints_are_not_trusted(row, other, data):
    right = SortedKeys(row, epsilon=1).hints.tolist()
    for _ in range(data.draw(st.integers(0, 3))):
        place = data.draw(st.integers(0, len(right) - 1))
        right[place] = data.draw(words)
    cut = data.draw(st.integers(0, len(right)))
    for hints in (right, right[:cut], right[:1] + other, other):
        keys = SortedKeys(row, hints=hints)
        questions = row[:30] + [0, TOP]
        wanted = [bisect.bisect_left(row, question) for question in questions]
        assert [keys.position(question) for question in questions] == wanted
        assert keys.positions(questions).tolist() == wanted
        wanted = [bisect.bisect_right(row, question) for question in questions]
        assert keys.positions_after(questions).tolist() == wanted


def test_hints_are_saved_and_loaded(tmp_path):
    row, path = random_keys(5000), tmp_path / "some.hints"
    made = SortedKeys(row, epsilon=8)
    made.save_hints(path)
    loaded = SortedKeys(row, hints=path)
    assert loaded.hints.tolist() == made.hints.tolist()
    assert SortedKeys(row, hints=made.hints).positions(row).tolist() == list(range(5000))
    others = SortedKeys(PRIMES, hints=str(path))
    assert others.positions(PRIMES).tolist() == list(range(10))
    path.write_bytes(path.read_bytes()[:80])
    loaded.load_hints(path)
    assert loaded.positions(row).tolist() == list(range(5000))


@pytest.mark.parametrize("content", [b"", b"1234567", b"12345678", bytes(64), b"KBQHINT"])
def test_a_file_of_something_else_is_no_hints(tmp_path, content):
    path, keys = tmp_path / "some.file", SortedKeys(PRIMES)
    path.write_bytes(content)
    before = keys.hints.tolist()
    with pytest.raises(ValueError):
        keys.load_hints(path)
    assert keys.hints.tolist() == before
    with pytest.raises(FileNotFoundError):
        SortedKeys(PRIMES, hints=tmp_path / "none")


def key_bytes(row, dtype="<u8", count=None):
    count = len(row) if count is None else count
    return count.to_bytes(8, "little") + numpy.array(row, dtype).tobytes()


def test_key_files_are_mapped(tmp_path):
    path = tmp_path / "some.keys"
    for dtype in ("<u8", "<u4"):
        path.write_bytes(key_bytes(PRIMES, dtype))
        mapped = kuldebiq.key_file(path)
        assert isinstance(mapped, numpy.memmap) and mapped.dtype == dtype
        keys = SortedKeys(mapped)
        assert keys.position(12) == 5 and lies_in(keys, mapped)
    path.write_bytes(key_bytes([]))
    assert len(SortedKeys(kuldebiq.key_file(path))) == 0
    path.write_bytes(key_bytes(PRIMES))
    mapped = kuldebiq.key_file(str(path))
    keys = SortedKeys(mapped)
    assert lies_in(keys, mapped)
    del mapped
    gc.collect()
    assert list(keys) == PRIMES


@pytest.mark.parametrize(
    "content",
    [
        b"",
        b"1234567",
        key_bytes(PRIMES)[:-1],
        key_bytes(PRIMES) + b"0",
        key_bytes(PRIMES, count=9),
        key_bytes(PRIMES, count=1 << 63),
        key_bytes([], count=1),
    ],
)
def test_a_file_that_is_no_key_file_is_refused(tmp_path, content):
    path = tmp_path / "some.file"
    path.write_bytes(content)
    with pytest.raises(ValueError, match="some.file"):
        kuldebiq.key_file(path)


def test_a_map_of_memory_lives_as_long_as_its_keys(tmp_path):
    path = tmp_path / "row"
    path.write_bytes(array("Q", PRIMES).tobytes())
    with open(path, "rb") as file:
        mapped = mmap.mmap(file.fileno(), 0, access=mmap.ACCESS_READ)
    keys = SortedKeys(memoryview(mapped).cast("Q"))
    with pytest.raises(BufferError):
        mapped.close()
    assert keys.position(12) == 5
