"""Draws the pictures of bench/README.md of the records, docs/pictures/NAME.svg, by matplotlib."""
import dataclasses
import io
import math
import pathlib
import re
import statistics
import typing

import matplotlib
import records
import tables
from records import mean
from tables import BOUNDS, EIGHT, NEIGHBOURS, WAYS

matplotlib.use("svg")
import matplotlib.pyplot as plot  # noqa: E402 (the way of drawing is chosen before)

# Texts stay texts, and the same numbers give the same file.
plot.rcParams.update({"svg.fonttype": "none", "svg.hashsalt": "kuldebiq", "font.size": 8,
                      "axes.edgecolor": "#999999", "axes.labelcolor": "#444444",
                      "xtick.color": "#444444", "ytick.color": "#444444", "axes.axisbelow": True,
                      "grid.color": "#e4e7eb"})
# What is proved is blue or green, what stands beside it is not.
PROVED = "#1b6ca8", "#2e8b57", "#6fc3c9", "#9fd0a8", "#14456b", "#a9cbe8"
BESIDE = "#9aa5b1", "#d9a441", "#c0392b", "#8e6bb0", "#ecd5a5", "#dfb1ab"
WIDTH, BAR, GAP = 8.0, 0.115, 0.1  # in inches


def times(series, scale=1):
    """All rounds of a series."""
    return lambda record, row: [value * scale for value in record.rounds_of(row, series)]


def ratios(series, base):
    """All rounds of a series, as parts of another's least."""
    return lambda record, row: [value / record.least(row, base)
                                for value in record.rounds_of(row, series)]


def rates(series):
    """Millions a second, of the seconds that all questions took."""
    return lambda record, row: [record.given["questions"] / value / 1e6
                                for value in record.rounds_of(row, series) if value > 0]


@dataclasses.dataclass
class Bars:
    """A picture of bars: each row of a record is a group in each panel. A bar has a name, and what
    gives the numbers of its rounds, of which the best one is its length."""

    name: str
    part: str
    unit: str
    panels: list  # of a title and the bars
    rows: dict = None
    best: typing.Callable = min
    line: float = None


def one(name, part, unit, *bars, **more):
    return Bars(name, part, unit, [("", sum(bars, []))], **more)


def coloured(colours, pairs, rounds_of):
    return [(name, rounds_of(series), colour) for (name, series), colour in zip(pairs, colours)]


def proved(*pairs, of=times):
    return coloured(PROVED, pairs, of)


def beside(*pairs, of=times):
    return coloured(BESIDE, pairs, of)


def micro(series):
    return times(series, 1e-3)


def by_bigmin(series):
    return ratios(series, "C++")


PICTURES = (
    one("explain", "explain", "seconds", beside(("of the processor", "processor"),
                                                ("of the process", "wall"))),
    Bars("segmenting", "segmenting", "nanoseconds a key", [
        (f"ε {eps}", beside(("C++ fitter", f"C++ {eps}")) + proved(("segment", f"segment {eps}")))
        for eps in BOUNDS]),
    one("workers", "segmenting", "nanoseconds a distinct key, ε 64",
        beside(("C++ fitter", "C++ 64")),
        proved(("segment", "segment 64"), ("pieces, 1 worker", "pieces 1"),
               ("pieces, 2 workers", "pieces 2"), ("pieces, 4 workers", "pieces 4"))),
    one("pieces", "pieces", "seconds, ε 64", proved(
        *((f"{name}, {workers} worker{'s' if workers > 1 else ''}", f"{name} {workers}")
          for name in ("build", "relax") for workers in (1, 2, 4)))),
    one("lookups", "lookups", "nanoseconds a question, ε 64",
        beside(("std::lower_bound", "lower_bound alone"), ("C++ PGM", "pgm_64 alone"),
               ("halving, 16", "halving together"), ("C++ PGM, 16", "pgm_64 together"),
               ("numpy.searchsorted", "searchsorted together")),
        proved(("Index", "64 index alone"), ("Index::positions, 16", "64 index together"))),
    one("tables", "lookups", "nanoseconds a question, ε 16",
        beside(("C++ PGM", "pgm_16 alone"), ("C++ PGM by buckets", "buckets_16 alone"),
               ("RadixSpline", "spline_16 alone"), ("RMI 2^16", "rmi_16 alone"),
               ("RMI 2^20", "rmi_20 alone")),
        proved(("Index", "16 index alone"), ("Buckets", "16 buckets alone"),
               ("Index, 16", "16 index together"), ("Buckets, 16", "16 buckets together"))),
    one("hints", "hints", "nanoseconds a question, ε 16",
        beside(("std::lower_bound", "lower_bound alone"), ("C++ PGM", "pgm_16 alone"),
               ("RadixSpline", "spline_16 alone")),
        proved(("position", "16 own alone"), ("position, chained", "16 own chained"),
               ("positions, 16", "16 own together"))),
    one("building", "building", "seconds, ε 64",
        beside(("C++ build", "C++ build"), ("C++ read", "C++ read")),
        proved(("build, 1 thread", "build 1"), ("build, 4 threads", "build 4"))),
    one("questions", "questions", "seconds, with huge pages",
        beside(("C++, halving, 16", "by itself")),
        proved(("query, 1 thread", "query 1"), ("query, 4 threads", "query 4"))),
    one("boxes", "boxes", "part of the time of the C++ program with BIGMIN, which is the line",
        beside(("Boost's R-tree", "Boost"), of=by_bigmin),
        proved(*((way, way) for way in WAYS), of=by_bigmin), line=1),
    Bars("nearest", "near", "microseconds a centre", [
        (f"k = {k}", beside(("k-d tree", f"tree {k}"), of=micro) +
         proved(("nearest_into", f"near {k}"), ("nearest_places", f"places {k}"), of=micro))
        for k in NEIGHBOURS]),
    Bars("euclid", "near", "microseconds a centre, by Euclid's distance", [
        (f"k = {k}", beside(("nanoflann", f"nanoflann {k}"), ("Boost's R-tree", f"Boost {k}"),
                            ("k-d tree", f"tree by Euclid {k}"), of=micro) +
         proved(("nearest_places", f"places by Euclid {k}"), of=micro)) for k in NEIGHBOURS]),
    one("map", "map", "nanoseconds an operation", beside(("absl::btree_map", "btree_map")),
        proved(("LogMap", "LogMap")), rows=tables.WORKS),
    one("readers", "readers", "millions of looks a second",
        beside(("tree and lock, writer still", "tree still looks"),
               ("tree and lock, publishing", "tree publishing looks")),
        proved(("map, writer still", "map still looks"),
               ("map, publishing", "map publishing looks")), best=max),
    one("senders", "senders", "millions of updates a second",
        beside(("deque, yield", "deque yield"), ("deque, wait", "deque wait"),
               ("moodycamel, yield", "queue yield"), ("moodycamel, wait", "queue wait"), of=rates),
        proved(("mix beyond replay", "mix beyond replay"), of=rates), best=max),
    one("saved", "building", "seconds, ε 64", proved(
        ("build", "build 1"), ("save", "save"), ("check", "check"))),
    one("from_c", "from_c", "nanoseconds a question of one thread", proved(
        ("kuldebiq_find", "hints"), ("handles side by side", "beside"),
        ("64 bytes apart", "apart"))),
)


def plainly(text):
    return text.replace("`", "")


def bar_panel(axes, picture, record, rows, bars):
    """The bars of a panel, with a line from the least to the greatest round and a mark at the
    median, and how tall its groups are."""
    tall = BAR * len(bars) + GAP
    for place, row in enumerate(rows):
        for number, (name, rounds_of, colour) in enumerate(bars):
            rounds = rounds_of(record, row)
            if not rounds:
                continue
            y = place * tall + GAP / 2 + (number + 0.5) * BAR
            best = picture.best(rounds)
            axes.barh(y, best, BAR * 0.82, color=colour,
                      label=name if place == 0 else None)
            if len(rounds) > 1:
                axes.hlines(y, min(rounds), max(rounds), color="#444444", linewidth=0.6)
                axes.plot(statistics.median(rounds), y, "|", color="#444444", markersize=4,
                          markeredgewidth=0.8)
    axes.set_ylim(len(rows) * tall, 0)
    axes.set_yticks([(place + 0.5) * tall for place in range(len(rows))],
                    [plainly((picture.rows or {}).get(row, row)) for row in rows])
    axes.tick_params(axis="y", length=0)
    axes.grid(axis="x")
    if picture.line is not None:
        axes.axvline(picture.line, color="#444444", linewidth=0.8)
    axes.set_xlim(left=0)


def note(record):
    """How many rounds the picture has, for below its axis."""
    said = f"{record.day}, commit {record.commit}"
    many = record.given["rounds"]
    kept = max(len(rounds) for series in record.numbers.values() for rounds in series.values())
    if kept > 1:
        return f"{said}: bars are the best of {many} rounds, lines go over all, marks are medians"
    return f"{said}: the best of {many} rounds" if many > 1 else f"{said}: one round"


def bars(picture, record):
    """A picture of bars, and None where the record has none of its numbers."""
    panels = [(title, [bar for bar in wanted if any(bar[1](record, row) for row in record.numbers)])
              for title, wanted in picture.panels]
    panels = [(title, wanted) for title, wanted in panels if wanted]
    if not panels:
        return None
    rows = [row for row in picture.rows or record.numbers
            if any(bar[1](record, row) for _, wanted in panels for bar in wanted)]
    many = len(panels[0][1])
    legend_rows = -(-many // 4)
    top, bottom = 0.25 + 0.2 * legend_rows + (0.2 if panels[0][0] else 0), 0.66
    tall = top + bottom + len(rows) * (BAR * many + GAP)
    figure, all_axes = plot.subplots(1, len(panels), figsize=(WIDTH, tall), sharey=True,
                                     squeeze=False)
    names = [plainly((picture.rows or {}).get(row, row)) for row in rows]
    left = 0.3 + 0.062 * max(map(len, names))
    figure.subplots_adjust(left / WIDTH, bottom / tall, 1 - 0.2 / WIDTH, 1 - top / tall, 0.08)
    for axes, (title, wanted) in zip(all_axes[0], panels):
        bar_panel(axes, picture, record, rows, wanted)
        axes.set_title(title, fontsize=8, color="#444444")
    figure.legend(*all_axes[0][0].get_legend_handles_labels(), loc="upper center",
                  ncol=min(many, 4), frameon=False)
    figure.text(0.5, 0.27 / tall, picture.unit, ha="center", color="#444444")
    figure.text(0.5, 0.08 / tall, note(record), ha="center", color="#888888", fontsize=7)
    return figure


# Of each index of the picture of bytes its points: a name, the part and the series of its time, the
# part and the series of its bytes. The base of a time is std::lower_bound in the same part.
INDEXES = (
    ("Index", ("ε 16", "lookups", "16 index", "memory", "index 16"),
     ("ε 64", "lookups", "64 index", "memory", "index 64")),
    ("hints", ("ε 16", "hints", "16 own", "hints", "16 own bytes"),
     ("ε 64", "hints", "64 own", "hints", "64 own bytes")),
    ("C++ PGM-index", ("ε 16", "lookups", "pgm_16", "memory", "pgm_16"),
     ("ε 64", "lookups", "pgm_64", "memory", "pgm_64")),
    ("C++ PGM-index by buckets", ("ε 16", "lookups", "buckets_16", "memory", "buckets_16")),
    ("RadixSpline", ("ε 16", "lookups", "spline_16", "memory", "spline_16")),
    ("RMI", ("2^16", "lookups", "rmi_16", "memory", "rmi_16")),
)
PARTS_OF_BYTES = "lookups", "hints", "memory"


def points_of(point, found):
    """Percents of halving's time, and bytes, in the mean of the eight kinds; None where the records
    haven't both."""
    _, part, way, part_of_bytes, sizes = point
    shares = tables.parts(found[part], f"{way} alone", "lower_bound alone", EIGHT)
    sizes = found[part_of_bytes].least_of(sizes, EIGHT)
    return (100 * mean(shares), mean(sizes)) if shares and sizes else None


def bytes_picture(folder):
    """What part of a binary search's time a lookup takes, beside the bytes that an index takes."""
    found = {part: records.read(part, folder) for part in PARTS_OF_BYTES}
    if None in found.values():
        return None
    figure, axes = plot.subplots(figsize=(WIDTH, 4.6), layout="constrained")
    shares = [100]
    for colour, (name, *wanted) in zip(("#1b6ca8", "#2e8b57", "#d9a441", "#8e6bb0", "#c0392b",
                                        "#9aa5b1"), INDEXES):
        spots = [(point[0], points_of(point, found)) for point in wanted]
        spots = [(bound, spot) for bound, spot in spots if spot]
        axes.plot([spot[1] for _, spot in spots], [spot[0] for _, spot in spots], "o-",
                  color=colour, linewidth=1.2, label=name)
        for bound, (share, size) in spots:
            axes.annotate(bound, (size, share), (5, 3), textcoords="offset points", color=colour)
            shares.append(share)
    axes.axhline(100, color="#444444", linewidth=0.8)
    axes.set(xscale="log", ylim=(0, 20 * math.ceil(max(shares) / 20) + 5),
             xlabel="bytes beyond the keys, mean of the eight kinds",
             ylabel="percent of the time of std::lower_bound in the same run")
    axes.margins(x=0.12)
    axes.grid()
    axes.legend(loc="lower left", ncol=3, frameon=False)
    return figure


def keep(figure, path):
    """Writes a picture: an SVG has places to a hundredth of a point, and each path in one line."""
    path.parent.mkdir(parents=True, exist_ok=True)
    if path.suffix == ".svg":
        made = io.StringIO()
        figure.savefig(made, format="svg", metadata={"Date": None})
        short = re.sub(r"(\.\d\d)\d+", r"\1", made.getvalue())
        path.write_text(re.sub(r" *\n(?=[LCz] ?)", "", short))
    else:
        figure.savefig(path)
    plot.close(figure)


def draw(part, folder, records_folder=records.FOLDER, form="svg"):
    """Draws what the record of a part gives into the folder's folder `pictures`."""
    record = records.read(part, records_folder)
    made = {picture.name: bars(picture, record) for picture in PICTURES if picture.part == part}
    if part in PARTS_OF_BYTES:
        made["bytes"] = bytes_picture(records_folder)
    for name, figure in made.items():
        if figure:
            keep(figure, pathlib.Path(folder) / "pictures" / f"{name}.{form}")
