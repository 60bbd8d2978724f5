"""`Points` beside filters and full sorts of numpy."""

import copy
import pickle

import numpy
import pytest
from hypothesis import given
from hypothesis import strategies as st

import kuldebiq
from kuldebiq import Points, Refused, SortedKeys

BITS = {2: 32, 3: 21, 4: 16}
TOP = (1 << 64) - 1
hint_lists = st.lists(st.integers(0, TOP), max_size=30)


@st.composite
def tables(draw):
    """Points of 2 to 4 coordinates, many of them equal or near an end."""
    dims = draw(st.sampled_from([2, 3, 4]))
    most = (1 << BITS[dims]) - 1
    number = st.integers(0, 6) | st.integers(most - 3, most) | st.integers(0, most)
    point = st.tuples(*[number] * dims)
    return draw(st.lists(point, max_size=60)), draw(point), draw(point), dims


def table_of(points, dims):
    return numpy.array(points, numpy.uint64).reshape(len(points), dims)


def code(point):
    """The code by its definition: bit b of coordinate c is bit b * dims + c."""
    return sum(
        (int(number) >> bit & 1) << (bit * len(point) + at)
        for at, number in enumerate(point)
        for bit in range(32)
    )


def squares(points, centre):
    return [sum((int(a) - int(b)) ** 2 for a, b in zip(point, centre)) for point in points]


def greatest(points, centre):
    return [max(abs(int(a) - int(b)) for a, b in zip(point, centre)) for point in points]


@given(
    tables(), st.booleans(), st.sampled_from(["made", "none", "damaged", "others"]), hint_lists
)
def test_boxes_are_those_of_a_filter(case, orders, hints, others):
    points, one, other, dims = case
    table = table_of(points, dims)
    made = Points(table, {"made": None, "none": [], "damaged": [TOP] * 9, "others": others}[hints])
    low, high = (numpy.minimum(one, other), numpy.maximum(one, other)) if orders else (one, other)
    wanted = numpy.flatnonzero(((low <= table) & (table <= high)).all(axis=1))
    assert made.rows(low, high).tolist() == wanted.tolist()
    assert made.count(tuple(low), list(high)) == len(wanted)
    stretches = made.box(low, high)
    assert stretches.dtype == numpy.intp and stretches.shape == (len(stretches), 2)
    places = [place for start, stop in stretches for place in range(start, stop)]
    assert sorted(made.order[places].tolist()) == wanted.tolist()
    assert (numpy.diff(stretches.ravel()) > 0).all()


@given(tables(), st.integers(0, 70), st.booleans())
def test_nearest_are_those_of_a_sort(case, k, damaged):
    points, centre, _, dims = case
    made = Points(table_of(points, dims), [TOP, 3, 5] if damaged else None)
    for metric, distances in (("squares", squares), ("chebyshev", greatest)):
        far = distances(points, centre)
        order = sorted(range(len(points)), key=lambda row: (far[row], code(points[row]), row))[:k]
        rows, found = made.nearest(centre, k, metric)
        assert rows.tolist() == order and [int(one) for one in found] == [far[row] for row in order]
    rows, exact = made.nearest(centre, k, "squares")
    again, roots = made.nearest(numpy.array(centre), numpy.int64(k))
    assert again.tolist() == rows.tolist() and roots.dtype == numpy.float64
    assert roots.tolist() == pytest.approx([int(one) ** 0.5 for one in exact], rel=1e-15)


@given(tables())
def test_codes_are_in_order(case):
    points, _, _, dims = case
    made = Points(table_of(points, dims))
    order = sorted(range(len(points)), key=lambda row: (code(points[row]), row))
    assert made.order.tolist() == order and len(made) == len(points) and made.dims == dims
    assert list(made.codes) == [code(points[row]) for row in order]


def test_many_points():
    chance = numpy.random.default_rng(7)
    table = chance.integers(0, 1000, (50_000, 2))
    made = Points(table)
    for low, high in [((100, 200), (300, 250)), ((0, 0), (999, 999)), ((500, 0), (500, 999))]:
        wanted = numpy.flatnonzero(((low <= table) & (table <= high)).all(axis=1))
        assert (made.rows(low, high) == wanted).all() and made.count(low, high) == len(wanted)
    for centre in [(0, 0), (500, 500), (3_000_000_000, 7)]:
        far = ((table - centre) ** 2).sum(axis=1)
        rows, found = made.nearest(centre, 100, "squares")
        assert (found == numpy.sort(far)[:100]).all() and (far[rows] == found).all()
        assert len(set(rows.tolist())) == 100


def test_the_farthest_corners():
    most = (1 << 32) - 1
    made = Points([(0, 0), (most, 0), (most, most)])
    rows, exact = made.nearest((0, 0), 3, "squares")
    assert rows.tolist() == [0, 1, 2] and exact.tolist() == [0, most**2, 2 * most**2]
    assert exact.dtype == object and made.nearest((0, 0), 2, "squares")[1].dtype == numpy.uint64
    assert made.nearest((0, 0), 9).distances.tolist() == [0.0, most, (2 * most**2) ** 0.5]
    assert made.nearest((0, 0), 3, "chebyshev").distances.tolist() == [0, most, most]
    assert made.rows((0, 0), (most, most)).tolist() == [0, 1, 2]


@pytest.mark.parametrize("dtype", ["u1", "u2", "u4", "u8", "i1", "i4", "i8", ">u4", ">i8"])
def test_tables_of_any_whole_numbers(dtype):
    table = numpy.array([(1, 9, 3), (4, 4, 4), (5, 2, 9)], dtype)
    for form in (table, table[:, ::-1][:, ::-1], numpy.asfortranarray(table), table.tolist(),
                 list(map(tuple, table.tolist())), iter(table), list(table)):
        assert Points(form).rows((4, 0, 0), (9, 9, 9)).tolist() == [1, 2]


def test_frames_of_pandas():
    pandas = pytest.importorskip("pandas")
    for dtypes in (("uint32", "int64"), ("UInt16", "Int64"), ("uint8", "uint64")):
        frame = pandas.DataFrame({"x": [1, 4, 5], "y": [9, 4, 2]}, index=[7, 8, 9])
        frame = frame.astype(dict(zip("xy", dtypes)))
        made = Points(frame)
        assert frame.iloc[made.rows((4, 0), (9, 9))].index.tolist() == [8, 9]
        assert made.nearest(frame.iloc[0], 1).rows.tolist() == [0]
    twice = pandas.DataFrame([[1, 9], [4, 4]], columns=["x", "x"])
    assert Points(twice).count((0, 0), (9, 9)) == 2
    with pytest.raises(TypeError, match="column 'y'.*missing"):
        Points(pandas.DataFrame({"x": [1, 2], "y": pandas.array([1, None], "Int64")}))
    with pytest.raises(TypeError, match="column 'y'.*float64.*scale and round"):
        Points(pandas.DataFrame({"x": [1, 2], "y": [1.5, 2]}))
    with pytest.raises(OverflowError, match="column 'y'.*65535.*at row 1 is 70000: divide by 2"):
        Points(pandas.DataFrame({"x": [1, 2], "y": [1, 70_000], "z": 0, "t": 0}))


@pytest.mark.parametrize(
    "points, error, said",
    [
        ([(1, 2), (3, 4, 5)], TypeError, "list"),
        ([1, 2, 3], TypeError, r"shape \(3,\): write numpy.column_stack"),
        ([], TypeError, "shape"),
        (5, TypeError, "int"),
        ("ab", TypeError, "shape"),
        (numpy.zeros((2, 2, 2), int), TypeError, "shape"),
        ({(1, 2), (3, 4)}, TypeError, "set: write numpy.column_stack"),
        ({"x": [1], "y": [2]}, TypeError, "dict: write numpy.column_stack"),
        (numpy.ma.array([(1, 2), (3, 4)], mask=[(0, 0), (0, 1)]), TypeError, "column 1.*masked"),
        (numpy.zeros((2, 1), int), ValueError, "2 to 4 coordinates: 1 were given"),
        (numpy.zeros((2, 5), int), ValueError, "2 to 4 coordinates: 5 were given"),
        ([(1, 2.5)], TypeError, "column 0.*float64"),
        ([("a", "b")], TypeError, "column 0"),
        ([(1, 2), (3, -4)], OverflowError, "column 1.*at row 1 is -4: add 4"),
        ([(1, 2), (1 << 32, 4)], OverflowError, "column 0.*at row 1 is 4294967296: divide by 2"),
        ([(0, 0, 1 << 23)], OverflowError, "column 2.*2097151.*at row 0.*divide by 5"),
        ([(0, 0, 0, 1 << 16)], OverflowError, "column 3.*65535.*at row 0.*divide by 2"),
    ],
)
def test_tables_are_judged(points, error, said):
    with pytest.raises(error, match=said) as refused:
        Points(points)
    assert error is TypeError or isinstance(refused.value, Refused)


@pytest.mark.parametrize("ask", ["box", "rows", "count", "low", "nearest"])
def test_corners_are_judged(ask):
    made = Points([(1, 2, 3, 4), (5, 6, 7, 8)])
    call = {
        "box": lambda corner: made.box((0, 0, 0, 0), corner),
        "rows": lambda corner: made.rows((0, 0, 0, 0), corner),
        "count": lambda corner: made.count((0, 0, 0, 0), corner),
        "low": lambda corner: made.box(corner, (9, 9, 9, 9)),
        "nearest": made.nearest,
    }[ask]
    for corner, error in [((1, 2, 3), ValueError), ((1, 2, 3, 4, 5), ValueError),
                          ((1, 2, 3, 4.5), TypeError), ((1, 2, 3, None), TypeError),
                          ("1234", TypeError), (5, TypeError), (None, TypeError),
                          ((1, 2, 3, -1), OverflowError), ((1, 2, 3, 1 << 16), OverflowError),
                          ((1, 2, 3, 1 << 64), OverflowError), ((), ValueError)]:
        with pytest.raises(error) as refused:
            call(corner)
        assert error is TypeError or isinstance(refused.value, Refused)


def test_refusals_of_searches():
    made = Points([(1, 2), (5, 6)])
    assert made.count((0, 7), (9, 6)) == 0
    for metric in ("manhattan", "", None, 2):
        with pytest.raises(ValueError, match="'euclid', 'squares', 'chebyshev'"):
            made.nearest((0, 0), 1, metric)
    for k, error in [(-1, OverflowError), (1.0, TypeError), ("1", TypeError), (None, TypeError)]:
        with pytest.raises(error):
            made.nearest((0, 0), k)
    assert len(made.nearest((0, 0), TOP).rows) == 2 and len(made.nearest((0, 0), 0).rows) == 0
    with pytest.raises(ValueError):
        Points([(1, 2)], epsilon=1 << 21)


def test_no_points():
    for dims in (2, 3, 4):
        made = Points(numpy.empty((0, dims), numpy.uint32))
        corners = [0] * dims, [9] * dims
        assert len(made) == 0 and made.box(*corners).shape == (0, 2) and made.count(*corners) == 0
        for found in (made.rows(*corners), made.nearest(corners[0], 5).rows):
            assert found.dtype == numpy.intp and found.shape == (0,)


def test_hints_are_saved_and_loaded(tmp_path):
    table, path = numpy.random.default_rng(3).integers(0, 99, (3000, 3)), tmp_path / "some.hints"
    made = Points(table, epsilon=8)
    made.codes.save_hints(path)
    wanted = made.rows((5, 5, 5), (70, 50, 30)).tolist()
    loaded = Points(table, path)
    assert loaded.codes.hints.tolist() == made.codes.hints.tolist()
    path.write_bytes(path.read_bytes()[:80])
    made.codes.load_hints(path)
    for one in (loaded, made, Points(table, made.codes.hints)):
        assert one.rows((5, 5, 5), (70, 50, 30)).tolist() == wanted


def test_columns_in_the_order_of_the_codes():
    table = numpy.random.default_rng(4).integers(0, 50, (2000, 2))
    made = Points(table)
    x, y = table[made.order].T
    for start, stop in made.box((10, 20), (30, 40)):
        assert (10 <= x[start:stop]).all() and (x[start:stop] <= 30).all()
        assert (20 <= y[start:stop]).all() and (y[start:stop] <= 40).all()
    with pytest.raises(ValueError):
        made.order[0] = 1
    assert isinstance(made.codes, SortedKeys)


def test_copied_and_shown():
    made = Points([(1, 2), (5, 6), (3, 3)])
    for again in (pickle.loads(pickle.dumps(made)), copy.deepcopy(made), copy.copy(made)):
        assert again.rows((0, 0), (4, 4)).tolist() == [0, 2] and len(again) == 3
        assert again.nearest((5, 5)).rows.tolist() == [1]
    assert repr(made) == "Points(3 of 2 coordinates)"
    assert kuldebiq.Points is Points
