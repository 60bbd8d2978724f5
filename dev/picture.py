#!/usr/bin/env python3
"""Draws a level of an index as SVG: picture.py KEYS EXPLAINED [LEVEL] > level.svg

KEYS is a file of 64-bit keys, EXPLAINED what `pgmtool explain` wrote for it (docs/formats.md). Above
stand the places of the keys, with the segments' lines, each with its band of ε places to either side,
and of each run that is cut the three places that no line fits. Below stands how far each place is
from its segment's line, with the same band: there a witness's last place, the next run's first, lies
outside the band of the run that it ends. The heights are worked out exactly, in whole numbers, and
rounded once; axes and paths are by matplotlib (Debian's python3-matplotlib). A list of more than a
thousand points is thinned above, and nowhere below.
"""
import io
import re
import struct
import sys

try:
    import matplotlib
except ImportError:
    sys.exit("picture.py: matplotlib is wanted: apt-get install python3-matplotlib, and /usr/bin/python3")
matplotlib.use("svg")
import matplotlib.pyplot as plot  # noqa: E402 (the way of drawing is chosen before)
from matplotlib.ticker import MaxNLocator  # noqa: E402

COLOURS = ("#1b6ca8", "#2e8b57")
BAND, WITNESS, GREY = "#f2d16b", "#c0392b", "#666666"
SMALL = 60  # so many points are drawn as dots
# Texts stay texts, the same index gives the same file, and no point of a path is left out.
plot.rcParams.update({"svg.fonttype": "none", "svg.hashsalt": "kuldebiq", "font.size": 9,
                      "path.simplify": False, "axes.edgecolor": "#bbbbbb", "axes.labelcolor": GREY,
                      "xtick.color": GREY, "ytick.color": GREY, "grid.color": "#e6e6e6",
                      "axes.axisbelow": True, "axes.titlecolor": GREY, "axes.titlesize": 9,
                      "axes.formatter.useoffset": False, "axes.formatter.limits": (-20, 20)})


def read_keys(name):
    with open(name, "rb") as file:
        data = file.read()
    (count,) = struct.unpack_from("<Q", data)
    return struct.unpack_from(f"<{count}Q", data, 8)


def points_of(keys):
    """The points of level 0: each distinct key at its first place, and closing points behind equal keys."""
    points = []
    for place, key in enumerate(keys):
        if place and key == keys[place - 1]:
            ends = place + 1 == len(keys) or keys[place + 1] != key
            following = keys[place + 1] if place + 1 < len(keys) else None
            if ends and key + 1 < 1 << 64 and following != key + 1:
                points.append((key + 1, place + 1))
        else:
            points.append((key, place))
    return points


def read_levels(name):
    """Of each level its error bound and its runs."""
    levels = []
    with open(name) as file:
        for words in map(str.split, file):
            if words[0] == "level":
                levels.append((int(words[words.index("eps") + 1]), []))
            elif words[0] == "run":
                at = words.index("line") + 1
                cut = words[words.index("cut") + 1:] if "cut" in words else None
                levels[-1][1].append({
                    "start": int(words[1]), "end": int(words[2]), "line": tuple(map(int, words[at:at + 4])),
                    "side": cut and cut[0], "witness": cut and tuple(map(int, cut[1:]))})
    return levels


def height(line, x):
    """The height of a line, rounded once: Python divides whole numbers so."""
    x0, y0, rise, run = line
    return (y0 * run + rise * (x - x0)) / run


def above_line(point, line):
    """How far a point is above a line, rounded once."""
    (x, y), (x0, y0, rise, run) = point, line
    return ((y - y0) * run - rise * (x - x0)) / run


def across(points):
    """The x and the y of points, as lists: keys of 64 bits are rounded here, behind all heights."""
    return [float(x) for x, _ in points], [float(y) for _, y in points]


def segments(axes, points, runs, eps):
    """Of each run its line, with the band of ε places about it."""
    for number, run in enumerate(runs):
        ends = points[run["start"]][0], points[run["end"] - 1][0]
        xs, ys = across([(x, height(run["line"], x)) for x in ends])
        axes.fill_between(xs, [y - eps for y in ys], [y + eps for y in ys], color=BAND, alpha=0.55,
                          linewidth=0)
        axes.plot(xs, ys, color=COLOURS[number % 2], linewidth=1.6)


def circles(axes, points):
    axes.plot(*across(points), "o", color=WITNESS, fillstyle="none", markersize=7, markeredgewidth=1.2)


def witnesses(axes, points, runs, eps):
    """Of each cut the chord between its outer places, ε below or above them, and the three points."""
    for run in runs:
        if run["witness"]:
            shift = eps if run["side"] == "under" else -eps
            p, q, r = (points[place] for place in run["witness"])
            chord = [(x, y + shift) for x, y in (p, r)]
            axes.plot(*across(chord), "--", color=WITNESS, linewidth=1)
            circles(axes, (p, q, r))


def offsets(axes, points, runs, eps):
    """How far each place is from its segment's line, and of each cut the three places."""
    axes.axhspan(-eps, eps, color=BAND, alpha=0.55, linewidth=0)
    axes.axhline(0, color=GREY, linewidth=0.8)
    for number, run in enumerate(runs):
        shown = [(point[0], above_line(point, run["line"])) for point in points[run["start"]:run["end"]]]
        colour = COLOURS[number % 2]
        if len(shown) > SMALL:
            axes.plot(*across(shown), color=colour, linewidth=0.6)
        else:
            axes.plot(*across(shown), "o", color=colour, markersize=4)
    for run in runs:
        circles(axes, [(points[place][0], above_line(points[place], run["line"]))
                       for place in run["witness"] or ()])


def picture(points, eps, runs, title, x_label, y_label):
    figure, (above, below) = plot.subplots(2, 1, sharex=True, figsize=(8, 6), layout="constrained",
                                           height_ratios=(300, 170))
    small = len(points) <= SMALL
    if small:
        above.plot(*across(points), "o", color="#222222", markersize=4, zorder=3)
    else:
        thin = points[::max(len(points) // 500, 1)]
        above.plot(*across(thin), color="#999999", linewidth=4, alpha=0.6)
    segments(above, points, runs, eps)
    witnesses(above, points, runs, eps)
    offsets(below, points, runs, eps)
    legend = f"yellow: the band of {eps} places; " if eps else ""
    above.set(title=title, ylabel=y_label)
    below.set(xlabel=f"{x_label}\n{legend}red: three places that no line fits, for each run that is cut",
              ylabel="from its line, in places")
    for axes in (above, below):
        axes.grid()
        axes.margins(x=0.02 if small else 0.005, y=0.08)
    above.yaxis.set_major_locator(MaxNLocator(integer=True))
    return figure


def svg_of(figure):
    """The picture as text: places to a hundredth of a point, and each path in one line."""
    made = io.StringIO()
    figure.savefig(made, format="svg", metadata={"Date": None})
    return re.sub(r" *\n(?=[LCz] ?)", "", re.sub(r"(\.\d\d)\d+", r"\1", made.getvalue()))


def main():
    if len(sys.argv) not in (3, 4):
        sys.exit(__doc__)
    level = int(sys.argv[3]) if len(sys.argv) == 4 else 0
    levels = read_levels(sys.argv[2])
    if level not in range(len(levels)):
        sys.exit(f"there is no level {level}")
    points = points_of(read_keys(sys.argv[1]))
    for _, runs in levels[:level]:
        points = [(points[run["start"]][0], place) for place, run in enumerate(runs)]
    eps, runs = levels[level]
    kind = "points" if level == 0 else "segments of the level below"
    labels = ("key", "place in the file") if level == 0 else ("first key of the segment", "segment")
    figure = picture(points, eps, runs, f"{len(points)} {kind}, ε = {eps}, segments: {len(runs)}", *labels)
    sys.stdout.write(svg_of(figure))


if __name__ == "__main__":
    main()
