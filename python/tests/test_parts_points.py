"""Points in parts in one process: beside a plain filter of the whole list by numpy."""

import itertools
import os
import tempfile

import numpy
import pandas
import pytest
from hypothesis import given
from hypothesis import strategies as some
from test_parts import SPOILED_HINTS, SPOILED_KEYS

from kuldebiq import parts
from kuldebiq.parts import _folder

BITS = {2: 32, 3: 21, 4: 16}
chance = numpy.random.default_rng(11)


def codes_of(points):
    """The codes by their definition: bit b of coordinate c is bit b * dims + c."""
    points = numpy.asarray(points, numpy.uint64)
    codes, one = numpy.zeros(len(points), numpy.uint64), numpy.uint64(1)
    for column, bit in itertools.product(range(points.shape[1]), range(BITS[points.shape[1]])):
        place = numpy.uint64(bit * points.shape[1] + column)
        codes |= (points[:, column] >> numpy.uint64(bit) & one) << place
    return codes


def in_order(points):
    return points[codes_of(points).argsort(kind="stable")]


def stretches_of(is_inside):
    ends = numpy.flatnonzero(numpy.diff(numpy.concatenate([[False], is_inside, [False]])))
    return ends.reshape(-1, 2).tolist()


def assert_boxes(asked, points, boxes):
    whole = in_order(numpy.asarray(points))
    assert (len(asked), asked.dims) == whole.shape
    assert asked.points().tolist() == whole.tolist()
    assert asked.points(-3, None).tolist() == whole[-3:].tolist()
    for low, high in boxes:
        is_inside = ((whole >= low) & (whole <= high)).all(axis=1)
        assert asked.box(low, high).tolist() == stretches_of(is_inside)
        assert asked.count(low, high) == is_inside.sum()


def points_in(dims, count=6_000, bits=None):
    return chance.integers(0, 1 << (bits or BITS[dims]), (count, dims), dtype=numpy.uint64)


def boxes_of(points, tries=8):
    """Of all points, of none, of one, thin ones, and those between two points."""
    dims = points.shape[1]
    greatest = (1 << BITS[dims]) - 1
    yield (0,) * dims, (greatest,) * dims
    yield (1,) * dims, (0,) * dims
    yield (greatest,) * dims, (greatest,) * dims
    for one, other in chance.choice(points, (tries, 2)):
        yield one, one
        yield numpy.minimum(one, other), numpy.maximum(one, other)
        yield (one[0], *(0,) * (dims - 1)), (one[0], *(greatest,) * (dims - 1))
        yield one, numpy.minimum(one + numpy.uint64(greatest >> 4), greatest)


POINTS = {
    (dims, name): table
    for dims in (2, 3, 4)
    for name, table in {
        "random": points_in(dims),
        # Points repeat, also over edges of parts.
        "near": points_in(dims, bits=3),
        "equal": numpy.full((3_000, dims), (1 << BITS[dims]) - 1, numpy.uint64),
        "one": numpy.arange(dims, dtype=numpy.uint64)[None],
        "none": numpy.empty((0, dims), numpy.uint64),
    }.items()
}


@pytest.mark.parametrize("rows", [700, 1 << 24])
@pytest.mark.parametrize("dims, name", POINTS)
def test_boxes_are_those_of_a_filter(tmp_path, dims, name, rows):
    points = POINTS[dims, name]
    boxes = list(boxes_of(points if len(points) else points_in(dims, 9)))
    assert_boxes(parts.make_points(points, tmp_path, rows=rows), points, boxes)
    assert_boxes(parts.PartPoints(tmp_path), points, boxes)


@some.composite
def small_cases(draw):
    """Some points, a box, and how many points are in a part."""
    dims = draw(some.sampled_from([2, 3, 4]))
    greatest = draw(some.sampled_from([1, 7, (1 << BITS[dims]) - 1]))
    point = some.tuples(*[some.integers(0, greatest)] * dims)
    points = draw(some.lists(point, min_size=1, max_size=30))
    return points, draw(point), draw(point), -(-len(points) // draw(some.integers(1, 6)))


@given(small_cases())
def test_any_box_of_any_points(case):
    points, low, high, rows = case
    with tempfile.TemporaryDirectory() as folder:
        made = parts.make_points(points, folder, rows=rows)
        ordered = numpy.minimum(low, high), numpy.maximum(low, high)
        assert_boxes(made, points, [(low, high), ordered])


@given(small_cases(), some.integers(0, 99))
def test_no_part_is_opened_that_has_no_code_of_the_box(case, at):
    """Between its ends, that is: other parts may be missing."""
    points, low, _, rows = case
    high = numpy.asarray(low) + [at % 4, at % 3, at % 2, 0][: len(low)]
    high = numpy.minimum(high, (1 << BITS[len(low)]) - 1)
    inside = itertools.product(*map(range, low, (high + 1).tolist()))
    codes = numpy.sort(codes_of([*inside]))
    with tempfile.TemporaryDirectory() as folder:
        made = parts.make_points(points, folder, rows=rows)
        right = made.box(low, high).tolist()
        for part in _folder.load(_folder.Path(folder))[1]:
            ends = numpy.array([part.first, part.last], numpy.uint64)
            if codes.searchsorted(ends[0], "left") == codes.searchsorted(ends[1], "right"):
                os.unlink(os.path.join(folder, part.keys))
        assert made.box(low, high).tolist() == right


# Where points come from.


def test_a_point_file_worked_by_hand(tmp_path):
    """The points (2, 0) and (1, 3). Their codes are, from the highest bit, 0100 and 1011."""
    path = tmp_path / "some.points"
    path.write_bytes(bytes.fromhex("0200000000000000 02000000 00000000 01000000 03000000"))
    made = parts.make_points(path, tmp_path / "parts", rows=1)
    assert made.keys().tolist() == [0b0100, 0b1011]
    assert made.points().tolist() == [[2, 0], [1, 3]]
    assert made.box([1, 0], [2, 3]).tolist() == [[0, 2]]
    assert made.box([0, 1], [9, 9]).tolist() == [[1, 2]] and made.count([0, 1], [0, 9]) == 0
    assert str(made).startswith("2 points in 2 parts, with 2 lines: lines over all points at once")
    assert repr(made).startswith("<PartPoints of ")


@pytest.mark.parametrize("dims", [2, 3, 4])
def test_points_come_from_files_and_tables(tmp_path, dims):
    points = points_in(dims, 9_000, bits=16)
    numpy.save(tmp_path / "a.npy", points[:5].astype(numpy.int64))
    numpy.save(tmp_path / "b.npy", numpy.asfortranarray(points[5:4_000].astype(numpy.uint16)))
    numpy.save(tmp_path / "c.npy", points[:0])
    content = (5_000).to_bytes(8, "little") + points[4_000:].astype("<u4").tobytes()
    (tmp_path / "d.points").write_bytes(content)
    (tmp_path / "e.points").write_bytes(bytes(8))
    frame = pandas.DataFrame(points.astype(numpy.int64), columns=[f"c{at}" for at in range(dims)])
    frame["c1"] = frame["c1"].astype("UInt32")
    boxes = list(boxes_of(points, 3))
    for source in ([tmp_path / name for name in sorted(os.listdir(tmp_path))], frame):
        assert_boxes(parts.make_points(source, tmp_path / "parts", rows=2_000), points, boxes)
    one = parts.make_points(str(tmp_path / "d.points"), tmp_path / "part", rows=2_000)
    assert_boxes(one, points[4_000:], boxes)


def saved(table):
    return lambda folder: numpy.save(folder / "a.npy", numpy.array(table)) or folder / "a.npy"


def written(*files):
    def write(folder):
        paths = [folder / f"{number}.points" for number in range(len(files))]
        for path, (count, size) in zip(paths, files):
            path.write_bytes(count.to_bytes(8, "little") + bytes(size))
        return paths

    return write


@pytest.mark.parametrize(
    "source, error, text",
    [
        (lambda _: [1, 2], TypeError, "rows of 2 to 4 numbers"),
        (lambda _: [(1.5, 2)], TypeError, "column 0"),
        (lambda _: [(1, -2)], OverflowError, "column 1 .* is -2"),
        (lambda _: [(1, 1 << 32)], OverflowError, "column 1 .* to 4294967295, .* is 4294967296"),
        (lambda _: [(1, 2, 1 << 21)], OverflowError, "column 2 .* to 2097151, .* is 2097152"),
        (lambda _: [(1 << 16, 2, 3, 4)], OverflowError, "column 0 .* to 65535, .* is 65536"),
        (lambda _: [(1,)], ValueError, "2 to 4 coordinates: 1"),
        (lambda _: [(1, 2, 3, 4, 5)], ValueError, "2 to 4 coordinates: 5"),
        (saved([1, 2]), TypeError, "rows of 2 to 4 numbers"),
        (saved([[0.5, 1.0]]), TypeError, "column 0"),
        (saved([[1, 2, 3, 4, 5]]), ValueError, "2 to 4 coordinates: 5"),
        (written((1, 4)), ValueError, "0.points.* 1 points, and 4 bytes"),
        (written((2, 17)), ValueError, "0.points"),
        (written((0, 8)), ValueError, "0.points"),
        (written((0, 0), (0, 0)), ValueError, "nothing says how many"),
        (written((2, 16), (0, 0), (2, 24)), ValueError, "2.points.* 3 coordinates, .* before 2"),
    ],
)
def test_what_are_no_points_is_refused(tmp_path, source, error, text):
    with pytest.raises(error, match=text):
        parts.make_points(source(tmp_path), tmp_path / "parts")
    assert not (tmp_path / "parts" / "parts.json").exists()


def test_a_short_file_is_no_point_file(tmp_path):
    (tmp_path / "a.points").write_bytes(bytes(7))
    with pytest.raises(ValueError, match="a.points"):
        parts.make_points(tmp_path / "a.points", tmp_path / "parts")


@pytest.mark.parametrize(
    "low, high, error",
    [
        ([1], [2, 3], ValueError),
        ([1, 2], [1, 2, 3], ValueError),
        ([1, -1], [2, 3], OverflowError),
        ([1, 2], [1, 1 << 32], OverflowError),
        ([1, 2], [1.5, 2], TypeError),
        (1, [2, 3], TypeError),
        ([[1, 2]], [2, 3], TypeError),
    ],
)
def test_what_is_no_box_is_refused(tmp_path, low, high, error):
    made = parts.make_points([(1, 2)], tmp_path)
    for ask in (made.box, made.count):
        with pytest.raises(error, match="low|high"):
            ask(low, high)


# The folder.


def test_codes_are_keys_and_keys_no_points(tmp_path):
    points = POINTS[3, "random"]
    made = parts.make_points(points, tmp_path, rows=2_000)
    codes = parts.Parts(tmp_path)
    assert (codes.keys() == numpy.sort(codes_of(points))).all() and codes.dims == 3
    assert (made.positions(codes_of(points[:9])) == codes.positions(codes_of(points[:9]))).all()
    assert parts.make([1, 2], tmp_path).dims is None
    with pytest.raises(ValueError, match="none of points"):
        parts.PartPoints(tmp_path)


def test_what_the_list_says_of_coordinates_is_checked(tmp_path):
    parts.make_points([(9, (1 << 32) - 1)], tmp_path)
    content = (tmp_path / "parts.json").read_bytes()
    epsilon, found, _ = _folder.load(tmp_path)
    for dims in (5, 1, "2", True, 2.0, [2]):
        _folder.save(tmp_path, epsilon, found, dims)
        with pytest.raises(ValueError, match="parts.json"):
            parts.Parts(tmp_path)
    _folder.save(tmp_path, epsilon, found, 3)
    with pytest.raises(ValueError, match="aren't codes of 3 numbers"):
        parts.PartPoints(tmp_path)
    (tmp_path / "parts.json").write_bytes(content.replace(b'"dims": 2', b'"dims": 4'))
    with pytest.raises(ValueError, match="parts.json.*checksum"):
        parts.PartPoints(tmp_path)


def test_a_call_that_is_cut_off_leaves_the_old_folder(tmp_path, monkeypatch):
    parts.make([3, 1, 2], tmp_path)
    rename = os.replace

    def break_off(source, target):
        if os.path.basename(target) == "parts.json":
            raise KeyboardInterrupt
        rename(source, target)

    with monkeypatch.context() as patched:
        patched.setattr(os, "replace", break_off)
        with pytest.raises(KeyboardInterrupt):
            parts.make_points([(1, 2), (3, 4)], tmp_path)
    assert parts.Parts(tmp_path).keys().tolist() == [1, 2, 3]
    assert parts.make_points([(1, 2), (3, 4)], tmp_path).points().tolist() == [[1, 2], [3, 4]]
    assert len(os.listdir(tmp_path)) == 3


@pytest.mark.parametrize("spoil", SPOILED_KEYS)
def test_a_part_that_isnt_the_one_that_was_made_is_refused(tmp_path, spoil):
    asked = parts.make_points(POINTS[2, "random"], tmp_path, rows=900)
    spoil(tmp_path / "part-00002.keys")
    with pytest.raises(ValueError, match="part-00002.keys"):
        parts.PartPoints(tmp_path)
    with pytest.raises(ValueError, match="part-0000[23].keys"):
        asked.box([0, 0], [1 << 31, 1 << 31])


@pytest.mark.parametrize("spoil", SPOILED_HINTS)
def test_hints_may_be_anything(tmp_path, spoil):
    points = POINTS[4, "random"]
    parts.make_points(points, tmp_path, rows=900)
    spoil(tmp_path / "part-00002.hints")
    with pytest.warns(parts.HintsWarning, match="part-00002.hints") as told:
        assert_boxes(parts.PartPoints(tmp_path), points, boxes_of(points))
    assert len([each for each in told if each.category is parts.HintsWarning]) == 1
