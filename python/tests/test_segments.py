"""Segments, by their definition in exact fractions, and the picture of them."""

import random
from fractions import Fraction
from itertools import combinations

import numpy
import pytest
from hypothesis import given
from hypothesis import strategies as st

import kuldebiq
from kuldebiq._segments import points

numbers = st.integers(0, 60) | st.integers((1 << 64) - 20, (1 << 64) - 1)
rows = st.lists(numbers, max_size=60).map(sorted)


def height(segment, x):
    x0, y0, rise, run = (int(segment[name]) for name in ("x0", "y0", "rise", "run"))
    return y0 + Fraction(rise * (x - x0), run)


def no_line_fits(three, epsilon):
    """The middle one of three points is more than 2 epsilon from the chord of the outer ones."""
    (x1, y1), (x2, y2), (x3, y3) = sorted(three)
    return abs(y1 + Fraction((y3 - y1) * (x2 - x1), x3 - x1) - y2) > 2 * epsilon


def points_by_definition(row):
    found = {key: row.index(key) for key in reversed(row)}
    for key in set(row):
        if row.count(key) > 1 and key + 1 not in found and key + 1 < 1 << 64:
            found[key + 1] = row.index(key) + row.count(key)
    return sorted(found.items())


@given(rows, st.integers(0, 3))
def test_segments_are_right_and_each_is_needed(row, epsilon):
    found = kuldebiq.segments(row, epsilon)
    x, y = points(row)
    both = list(zip(x.tolist(), y.tolist()))
    assert both == points_by_definition(row)
    ends = [*found["start"][1:].tolist(), len(both)]
    for segment, end in zip(found, ends):
        for at, place in both[int(segment["start"]) : end]:
            assert abs(height(segment, at) - place) <= epsilon
        if segment["side"]:
            cut = [both[int(segment[name])] for name in "pqr"]
            assert int(segment["r"]) == end and no_line_fits(cut, epsilon)
    assert [bool(side) for side in found["side"]] == [True] * (len(found) - 1) + [False] * bool(row)


def test_the_fewest_of_a_small_list():
    row = [0, 1, 2, 10]
    found = kuldebiq.segments(row, 0)
    assert found["start"].tolist() == [0, 3]
    assert any(no_line_fits(three, 0) for three in combinations(zip(row, range(4)), 3))
    assert len(kuldebiq.segments([], 0)) == 0


def test_segments_are_judged():
    for call in (kuldebiq.segments, kuldebiq.plot):
        for keys, epsilon, error in [([2, 1], 0, ValueError), ([1], 1 << 21, ValueError),
                                     ([1], -1, ValueError), ([1.5], 0, TypeError)]:
            with pytest.raises(error):
                call(keys, epsilon)


@pytest.mark.parametrize("count", [0, 1, 2, 40, 5000])
def test_plot(count):
    matplotlib = pytest.importorskip("matplotlib")
    matplotlib.use("svg")
    from matplotlib import pyplot

    chance = random.Random(count)
    keys = sorted(chance.randrange(1 << 64) for _ in range(count))
    above, below = kuldebiq.plot(numpy.array(keys, numpy.uint64), 2)
    cuts = max(len(kuldebiq.segments(keys, 2)) - 1, 0)
    for line in below.get_lines():
        offsets = numpy.abs(line.get_ydata())
        offsets = offsets[~numpy.isnan(offsets)]
        if line.get_label() == "cuts":
            assert len(offsets) == 3 * cuts and (offsets[2::3] > 2).all()
        else:
            assert offsets.max(initial=0) <= 2 + 1e-6
    shown = sum(len(line.get_ydata()) for line in below.get_lines() if line.get_linewidth() < 0.7)
    assert count <= 60 or shown >= count
    figure, axes = pyplot.subplots()
    assert kuldebiq.plot(keys, 2, axes) == (axes,)
    pyplot.close("all")
