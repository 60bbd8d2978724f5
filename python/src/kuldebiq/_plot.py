"""A picture of the segments over a person's own keys."""

from __future__ import annotations

import numpy
from numpy.typing import ArrayLike

from ._numbers import words
from ._segments import points, segments

__all__ = ["plot"]

_COLOURS = ("#1b6ca8", "#2e8b57")
_BAND, _CUT, _GREY = "#f2d16b", "#c0392b", "#666666"
_FEW = 60  # so many points are drawn as dots
_DOTS = {"marker": "o", "linestyle": "none", "markersize": 4}


def plot(keys: ArrayLike, epsilon: int = 64, axes=None):
    """Draw the places of sorted keys, the segments over them, and why these are no fewer.

    The upper picture has the place of each key, each segment's line in its band of epsilon places
    to either side, and at each cut, in red, the three points that no line fits within epsilon. The
    lower one has how far each key is from its segment's line, in places.

    Parameters
    ----------
    keys : array_like, shape (n,)
        Sorted keys, as ``SortedKeys`` takes them.
    epsilon : int, optional
        The error bound, in places, at most 1,048,576.
    axes : matplotlib Axes, or two of them, optional
        Where to draw: both pictures, or the upper one if there is one. If None, a figure is made.

    Returns
    -------
    tuple of matplotlib Axes
        Those that were drawn into.

    Raises
    ------
    ImportError
        If there is no matplotlib.
    TypeError, ValueError, OverflowError, MemoryError
        As ``SortedKeys`` says.
    """
    keys = words(keys)
    runs = _runs(keys, epsilon)
    if axes is None:
        axes = _new_axes()
    axes = tuple(numpy.atleast_1d(axes))
    _draw_places(axes[0], points(keys), runs, epsilon)
    axes[0].set(title=f"{len(keys)} keys, ε = {epsilon}, segments: {len(runs)}", ylabel="place")
    if len(axes) > 1:
        _draw_offsets(axes[1], runs, epsilon)
        axes[1].set(ylabel="from its line, in places")
    axes[-1].set_xlabel("key; red: three points that no line fits, at each cut")
    return axes


def _new_axes():
    from matplotlib import pyplot

    heights = {"height_ratios": (3, 2)}
    _, axes = pyplot.subplots(
        2, 1, sharex=True, figsize=(8, 6), layout="constrained", gridspec_kw=heights
    )
    return axes


class _Run:
    """A segment with the points that it covers, and those that show why it ends."""

    def __init__(self, segment, end: int, x: numpy.ndarray, y: numpy.ndarray):
        covered = slice(int(segment["start"]), end)
        self.segment = segment
        self.x, self.y = x[covered], y[covered]
        self.side = int(segment["side"])
        cut = [int(segment[name]) for name in "pqr"] if self.side else []
        self.cut_x, self.cut_y = x[cut], y[cut]

    def heights(self, x: numpy.ndarray) -> numpy.ndarray:
        """The heights of the line at some x, from differences that are exact."""
        x0 = self.segment["x0"]
        apart = numpy.where(x >= x0, (x - x0).astype(float), -(x0 - x).astype(float))
        slope = float(self.segment["rise"]) / float(self.segment["run"])
        return self.segment["y0"] + apart * slope


def _runs(keys: numpy.ndarray, epsilon: int) -> list[_Run]:
    x, y = points(keys)
    found = segments(keys, epsilon)
    ends = [*found["start"][1:].tolist(), len(x)]
    return [_Run(segment, end, x, y) for segment, end in zip(found, ends)]


def _joined(rows: list[numpy.ndarray]) -> numpy.ndarray:
    """Rows of numbers as one, with a gap behind each, so that one line draws all of them."""
    gap = numpy.array([numpy.nan])
    return numpy.concatenate([gap, *(part for row in rows for part in (row, gap))])


def _draw_by_turns(axes, x: list[numpy.ndarray], y: list[numpy.ndarray], **style) -> None:
    """Draw a line for each run, in two colours by turns."""
    for turn, colour in enumerate(_COLOURS):
        axes.plot(_joined(x[turn::2]), _joined(y[turn::2]), color=colour, **style)


def _draw_places(axes, all_points, runs: list[_Run], epsilon: int) -> None:
    few = len(all_points[0]) <= _FEW
    style = _DOTS if few else {"linewidth": 4}
    axes.plot(*all_points, color="#222222" if few else "#bbbbbb", zorder=3 if few else 1, **style)
    ends = [run.x[[0, -1]] for run in runs]
    heights = [run.heights(x) for run, x in zip(runs, ends)]
    x, y = _joined(ends), _joined(heights)
    axes.fill_between(x, y - epsilon, y + epsilon, color=_BAND, alpha=0.55, linewidth=0)
    _draw_by_turns(axes, ends, heights, linewidth=1.6)
    cuts = [run for run in runs if run.side]
    chords = [run.cut_y[[0, 2]] + (epsilon if run.side == 2 else -epsilon) for run in cuts]
    x = _joined([run.cut_x[[0, 2]] for run in cuts])
    axes.plot(x, _joined(chords), "--", color=_CUT, linewidth=1)
    _draw_cuts(axes, cuts, [run.cut_y for run in cuts])


def _draw_offsets(axes, runs: list[_Run], epsilon: int) -> None:
    axes.axhspan(-epsilon, epsilon, color=_BAND, alpha=0.55, linewidth=0)
    axes.axhline(0, color=_GREY, linewidth=0.8)
    few = sum(len(run.x) for run in runs) <= _FEW
    offsets = [run.y - run.heights(run.x) for run in runs]
    style = _DOTS if few else {"linewidth": 0.6}
    _draw_by_turns(axes, [run.x for run in runs], offsets, **style)
    cuts = [run for run in runs if run.side]
    _draw_cuts(axes, cuts, [run.cut_y - run.heights(run.cut_x) for run in cuts])


def _draw_cuts(axes, cuts: list[_Run], heights: list[numpy.ndarray]) -> None:
    """Draw the three points of each cut, and a faint grid."""
    style = {"fillstyle": "none", "markersize": 7, "markeredgewidth": 1.2}
    x = _joined([run.cut_x for run in cuts])
    axes.plot(x, _joined(heights), "o", color=_CUT, label="cuts", **style)
    axes.grid(color="#e6e6e6")
