"""Makes the tables of bench/README.md of the records, each between its marks `<!-- NAME -->` and
`<!-- end of NAME -->`, and what a part shows in short between `<!-- seen PART -->` and
`<!-- end of seen PART -->`."""
import dataclasses
import typing

from records import TOP, mean

PAGE = TOP / "bench/README.md"
# The means are over these kinds of keys, and over the regular ones by themselves.
EIGHT = "uniform", "cascade", "events", "dense", "pareto", "outliers", "lognormal", "normal"
REGULAR = "numbers", "ids", "minutes", "dense"
SETS = (("eight", EIGHT), ("regular", REGULAR))
COUNT = "{:,}"


@dataclasses.dataclass
class Table:
    """A table: its columns are pairs of a head and of what gives a cell, or None, of a row."""

    name: str
    part: str
    corner: str
    columns: list
    says: typing.Callable = lambda record: ""
    of: typing.Callable = lambda given: f"{given['size']:,} keys"
    rows: dict = None  # the rows that are wanted, with what they are called; else all
    picture: str = ""  # a picture that is there with the table alone, before it


# What gives a cell.

def number(series, form="{:.0f}", scale=1):
    def cell(record, row):
        value = record.least(row, series)
        return None if value is None else form.format(value * scale)
    return cell


def pair(first, second, form="{:.0f}", scale=1):
    def cell(record, row):
        cells = [number(series, form, scale)(record, row) for series in (first, second)]
        return None if None in cells else ", ".join(cells)
    return cell


def alone(way):
    """Independent questions, and such as wait for the answer before."""
    return pair(f"{way} alone", f"{way} chained")


def together(way):
    return number(f"{way} together")


def ratio(series, base, form="{:.2f}"):
    def cell(record, row):
        value, beside = record.least(row, series), record.least(row, base)
        return None if value is None or beside is None else form.format(value / beside)
    return cell


def rate(series, form="{:.2f}"):
    """Millions a second, of the seconds that all questions took."""
    def cell(record, row):
        taken = record.least(row, series)
        if taken is None:
            return None
        return form.format(record.given["questions"] / taken / 1e6) if taken > 0 else "-"
    return cell


def most(series, form="{:.2f}"):
    def cell(record, row):
        value = record.most(row, series)
        return None if value is None else form.format(value)
    return cell


def at_most(series, of):
    def cell(record, row):
        value = record.at_most(row, series, of)
        return None if value is None else f"{value}"
    return cell


# What stands below a table.

def parts(record, way, base, rows):
    """What part of another way's time a way takes, in each of these rows."""
    ways, bases = record.least_of(way, rows), record.least_of(base, rows)
    return [one / other for one, other in zip(ways, bases)] if ways and bases else []


def between(values, digits=2):
    return f"{min(values):.{digits}f} to {max(values):.{digits}f}"


def shares(record, ways, many):
    """What parts of the time of `std::lower_bound` ways take, each a name and a series: alone and
    chained, and of many at once."""
    said = []
    for name, rows in SETS:
        one, all_at_once = [], []
        for title, way in ways:
            plain, chained = (parts(record, f"{way} {how}", f"lower_bound {how}", rows)
                              for how in ("alone", "chained"))
            if plain and chained:
                one.append(f"{title} {mean(plain):.2f} ({max(plain):.2f}), chained "
                           f"{mean(chained):.2f} ({max(chained):.2f})")
        for title, way in many:
            plain = parts(record, f"{way} together", "lower_bound alone", rows)
            all_at_once += [f"{title} {mean(plain):.2f}"] if plain else []
        if one:
            said.append(f"In geometric means over the {name} kinds, parts of the time of "
                        "`std::lower_bound`, with the most on one kind in brackets: "
                        f"{'; '.join(one)}. Many together, of a single question's: "
                        f"{', '.join(all_at_once)}.")
    return " ".join(said)


def over_sets(record, way, base, said, sets=SETS):
    """A sentence for each set of kinds that the record has, of the parts of a way's time."""
    found = [(name, parts(record, way, base, rows)) for name, rows in sets]
    return " and ".join(f"{said(values)} over the {name} kinds" for name, values in found if values)


def says_of_lookups(record):
    return shares(record, (("C++ PGM", "pgm_64"), ("`Index`", "64 index")),
                  (("halving", "halving"), ("C++ PGM", "pgm_64"),
                   ("`numpy.searchsorted`", "searchsorted"), ("`Index::positions`", "64 index")))


def says_of_tables(record):
    return shares(record, (("C++ PGM", "pgm_16"), ("C++ PGM by buckets", "buckets_16"),
                           ("RadixSpline", "spline_16"), ("RMI 2^16", "rmi_16"),
                           ("RMI 2^20", "rmi_20"), ("`Index`", "16 index"),
                           ("`Buckets`", "16 buckets")),
                  (("`Index`", "16 index"), ("`Buckets`", "16 buckets")))


def says_of_hints(record):
    other = parts(record, "64 other alone", "lower_bound alone", EIGHT)
    return shares(record, (("C++ PGM, ε 16", "pgm_16"), ("RadixSpline, ε 16", "spline_16"),
                           ("`position`, ε 16", "16 own"), ("ε 64", "64 own")),
                  (("halving", "halving"), ("C++ PGM, ε 64", "pgm_64"),
                   ("`positions`, ε 16", "16 own"), ("ε 64", "64 own"))) + (
        f" With the hints of other keys {mean(other):.2f} ({max(other):.2f}) over the eight.")


def says_of_made_hints(record):
    sizes, builds = ([parts(record, f"{eps} own {what}", f"pgm_{eps} {what}", EIGHT)
                      for eps in (16, 64)] for what in ("bytes", "build"))
    said = ("In geometric means over the eight kinds, of the C++ PGM-index's: bytes "
            f"{mean(sizes[0]):.2f} and {mean(sizes[1]):.2f} with ε 16 and 64, at most "
            f"{max(sizes[0]):.2f} and {max(sizes[1]):.2f}; the time of building "
            f"{mean(builds[0]):.2f} and {mean(builds[1]):.2f}")
    regular = [parts(record, f"{eps} own build", f"pgm_{eps} build", REGULAR) for eps in (16, 64)]
    if all(regular):
        said += f", {mean(regular[0]):.2f} and {mean(regular[1]):.2f} over the regular kinds"
    return f"{said}."


def says_of_memory(record):
    values = [mean(parts(record, f"{side} {eps}", f"pgm_{eps}", EIGHT))
              for side in ("saved", "index") for eps in (16, 64)]
    return ("In geometric means over the eight kinds, of the C++ PGM-index's bytes: a saved index "
            "{:.2f} and {:.2f} with ε 16 and 64, `Index` {:.2f} and {:.2f}.".format(*values))


def says_of_building(record):
    said = [over_sets(record, f"build {workers}", "C++ build",
                      lambda values: f"{between(values)}, {mean(values):.2f} in the geometric mean")
            for workers in (1, 4)]
    return (f"Of the C++ program's time `build` takes with one worker {said[0]}; with four "
            f"{said[1]}.")


def says_of_saved(record):
    checks = over_sets(record, "check", "build 1", between)
    return f"`check` takes, of the time of `build`, {checks}."


def says_of_questions(record):
    said = [over_sets(record, f"query {workers}", "by itself",
                      lambda values: f"{between(values)}, {mean(values):.2f} in the geometric mean")
            for workers in (1, 4)]
    return (f"Of the C++ program's time `query` takes with one worker {said[0]}; with four "
            f"{said[1]}.")


BOUNDS = 4, 16, 64, 256


def fitted(record, rows):
    """What parts of the fitter's time `segment` takes, of all bounds."""
    return [part for eps in BOUNDS for part in parts(record, f"segment {eps}", f"C++ {eps}", rows)]


def says_of_segmenting(record):
    said = [f"{between(values)} over the {name} kinds, {mean(values):.2f} in the geometric mean"
            for name, values in ((name, fitted(record, rows)) for name, rows in SETS) if values]
    return f"`segment` takes, of the C++ fitter's time, {'; '.join(said)}."


def says_of_workers(record):
    said = [over_sets(record, f"pieces {workers}", "C++ 64", between) for workers in (1, 2, 4)]
    return (f"Of the C++ fitter's time one worker takes {said[0]}; two take {said[1]}; "
            f"four {said[2]}.")


WAYS = "count", "places", "fill", "visit"


def says_of_boxes(record):
    sides = [(f"`{way}`", way) for way in WAYS] + [("Boost's R-tree", "Boost")]
    said = [f"{side} {mean(values):.2f} ({between(values)})"
            for side, values in ((side, parts(record, way, "C++", None)) for side, way in sides)
            if values]
    return f"In the geometric mean over the sets: {', '.join(said)}.{says_of_code_hints(record)}"


def says_of_code_hints(record):
    """What the hints of the codes take, where they were made."""
    codes, sizes, builds = map(record.least_of, ("codes bytes", "hints bytes", "hints build"))
    if not codes:
        return ""
    milliseconds = between([build * 1e3 for build in builds], 0)
    return (f" The hints have {min(sizes):,} to {max(sizes):,} bytes beside {max(codes):,} of the "
            f"codes, and take {milliseconds} milliseconds to make.")


NEIGHBOURS = 1, 10, 100


def over_neighbours(record, way, base):
    """What parts of another way's time a way takes at each k; empty where neither was measured."""
    found = [(k, parts(record, f"{way} {k}", f"{base} {k}", None)) for k in NEIGHBOURS]
    return ", ".join(f"{between(values, 1)} at k = {k}" for k, values in found if values)


def says_of_near(record):
    said = f"Of the tree's time `nearest_into` takes {over_neighbours(record, 'near', 'tree')}."
    places = over_neighbours(record, "places", "near")
    return f"{said} `nearest_places` takes, of that of `nearest_into`, {places}." if places else said


def says_of_euclid(record):
    places = over_neighbours(record, "places by Euclid", "tree by Euclid")
    return f"Of the tree's time `nearest_places` takes {places}." if places else ""


def keys_and_questions(given):
    return f"{given['size']:,} keys, {given['questions']:,} questions"


def points(given):
    return f"{given['size'] // 10:,} points where they are made"


def points_and_centres(given):
    return f"{points(given)}, {given['questions'] // 100:,} centres"


def map_keys(given):
    return f"{given['size'] // 10:,} keys"


WORKS = {"put": "put", "hit": "get, a key that is there", "miss": "get, one that is not",
         "many16": "one of 16 that are there, by `get_many`",
         "many1000": "one of 1,000 that are there, by `get_many`",
         "next": "next", "mixed": "mixed updates", "next2": "next after them",
         "apply": "the same by `apply`", "next3": "next after both"}
WHOLES = {"range": "a range of a hundred pairs", "range2": "the same after mixed updates",
          "count": "a count of some hundred keys", "count2": "the same after mixed updates",
          "walk": "a pair, of all", "walk2": "the same after mixed updates",
          "walk3": "the same after a load", "back": "a pair, of all from the greatest down",
          "load": "a pair, of a load", "drop": "a key, of giving all up",
          "sweep": "a key, of a sweep over half of them", "first": "the least key after the sweep",
          "take": "the least of up to a million keys, taken",
          "ends": "the least and the greatest in turn, taken"}


def work_columns():
    return [("`LogMap`", number("LogMap")), ("`absl::btree_map`", number("btree_map")),
            ("ratio", ratio("LogMap", "btree_map"))]


TABLES = (
    Table("explain", "explain", "ε 0", [
        ("Output", number("output", "{:.0f} MB", 1e-6)),
        ("Processor seconds", number("processor", "{:.2g}")),
        ("Seconds", number("wall", "{:.2g}"))]),
    Table("segmenting", "segmenting", "nanoseconds a key", [
        (f"ε {eps}", pair(f"C++ {eps}", f"segment {eps}", "{:.1f}")) for eps in BOUNDS],
        says_of_segmenting),
    Table("segmenting by workers", "segmenting", "ε 64", [
        ("C++ fitter", number("C++ 64", "{:.1f}")), ("`segment`", number("segment 64", "{:.1f}")),
        ("pieces, 1 worker", number("pieces 1", "{:.1f}")),
        ("2", number("pieces 2", "{:.1f}")), ("4", number("pieces 4", "{:.1f}"))],
        says_of_workers),
    Table("pieces", "pieces", "ε 64", [
        ("runs", number("runs", COUNT)),
        *((f"`build`, {workers} worker" if workers == 1 else f"{workers}",
           number(f"build {workers}", "{:.2f}")) for workers in (1, 2, 4)),
        ("runs, slack 31", number("relaxed runs", COUNT)),
        *((f"`relax`, {workers} worker" if workers == 1 else f"{workers}",
           number(f"relax {workers}", "{:.2f}")) for workers in (1, 2, 4))]),
    Table("lookups", "lookups", "ε 64", [
        ("`std::lower_bound`", alone("lower_bound")), ("C++ PGM", alone("pgm_64")),
        ("`Index`, one at a time", alone("64 index")), ("halving, 16", together("halving")),
        ("C++ PGM, 16", together("pgm_64")), ("`numpy.searchsorted`", together("searchsorted")),
        ("`Index::positions`, 16", together("64 index"))], says_of_lookups, keys_and_questions),
    Table("lookups by tables", "lookups", "ε 16", [
        ("C++ PGM", alone("pgm_16")), ("C++ PGM by buckets", alone("buckets_16")),
        ("RadixSpline", alone("spline_16")), ("RMI 2^16", alone("rmi_16")),
        ("RMI 2^20", alone("rmi_20")), ("`Index`", alone("16 index")),
        ("`Buckets`", alone("16 buckets")), ("`Index`, 16", together("16 index")),
        ("`Buckets`, 16", together("16 buckets"))], says_of_tables, keys_and_questions),
    Table("hints", "hints", "nanoseconds", [
        ("`std::lower_bound`", alone("lower_bound")), ("C++ PGM, ε 16", alone("pgm_16")),
        ("ε 64", alone("pgm_64")), ("RadixSpline, ε 16", alone("spline_16")),
        ("`position`, ε 16", alone("16 own")), ("ε 64", alone("64 own")),
        ("ε 64, hints of other keys", alone("64 other")), ("halving, 16", together("halving")),
        ("C++ PGM, 16, ε 64", together("pgm_64")), ("`positions`, ε 16", together("16 own")),
        ("ε 64", together("64 own"))], says_of_hints, keys_and_questions),
    Table("hints that are made", "hints", "bytes; milliseconds of building", [
        (head, number(f"{way} {what}", form))
        for what, form, heads in (
            ("bytes", COUNT, ("C++ PGM, ε 16", "ε 64", "RadixSpline, ε 16", "hints, ε 16", "ε 64")),
            ("build", "{:.0f}", ("C++ PGM builds, ε 16", "ε 64", "RadixSpline, ε 16",
                                 "`hints_of`, ε 16", "ε 64")))
        for head, way in zip(heads, ("pgm_16", "pgm_64", "spline_16", "16 own", "64 own"))],
        says_of_made_hints),
    Table("building", "building", "seconds", [
        ("`build`, 1", number("build 1", "{:.3g}")), ("4", number("build 4", "{:.3g}")),
        ("C++ build", number("C++ build", "{:.3g}")), ("C++ read", number("C++ read", "{:.3g}"))],
        says_of_building),
    Table("a script of questions", "questions", "seconds, with huge pages", [
        ("`query`, 1", number("query 1", "{:.3f}")), ("4", number("query 4", "{:.3f}")),
        ("C++, halving, 16", number("by itself", "{:.3f}"))], says_of_questions,
        keys_and_questions),
    Table("boxes", "boxes", "microseconds a box, and parts of it", [
        ("C++", number("C++", "{:.2f}", 1e-3)), ("Boost's R-tree", ratio("Boost", "C++")),
        *((f"`{way}`", ratio(way, "C++")) for way in WAYS)], says_of_boxes, points),
    Table("near", "near", "microseconds a centre", [
        *((f"k = {k}", pair(f"near {k}", f"tree {k}", "{:.2f}", 1e-3)) for k in NEIGHBOURS),
        *((f"`nearest_places`, k = {k}", number(f"places {k}", "{:.2f}", 1e-3))
          for k in NEIGHBOURS)],
        says_of_near, points_and_centres),
    Table("near by Euclid", "near", "microseconds a centre", [
        (f"{title}, k = {k}", number(f"{side} {k}", "{:.2f}", 1e-3)) for k in NEIGHBOURS
        for title, side in (("nanoflann", "nanoflann"), ("Boost's R-tree", "Boost"),
                            ("k-d tree", "tree by Euclid"),
                            ("`nearest_places`", "places by Euclid"))],
        says_of_euclid, points_and_centres,
        picture="![Microseconds a centre of nanoflann, of Boost's R-tree, of the k-d tree and of "
                "nearest_places, by Euclid's distance](../docs/pictures/euclid.svg)"),
    Table("the nearest points", "nearest", "microseconds", [
        (f"k = {k}", pair(f"near {k}", f"tree {k}", "{:.2g}", 1e-3)) for k in NEIGHBOURS],
        of=points_and_centres),
    Table("the map", "map", "nanoseconds", work_columns(), of=map_keys, rows=WORKS),
    Table("the map as a whole", "map", "nanoseconds", work_columns(), of=map_keys, rows=WHOLES),
    Table("readers beside a writer", "readers", "millions of looks", [
        column for side, title in (("map", "map"), ("tree", "tree and lock"))
        for column in (
            (f"{title}, {'writer ' if side == 'map' else ''}still", most(f"{side} still looks")),
            (f"{title}, publishing", most(f"{side} publishing looks")),
            ("batches", at_most(f"{side} publishing batches", f"{side} publishing looks")))],
        of=lambda given: f"{map_keys(given)}, {given['questions']:,} looks of each reader"),
    Table("several senders", "senders", "millions of updates a second", [
        ("deque, `yield`", rate("deque yield")), ("deque, `wait`", rate("deque wait")),
        ("moodycamel, `yield`", rate("queue yield")), ("moodycamel, `wait`", rate("queue wait")),
        ("`mix` beyond `replay`", rate("mix beyond replay", "{:.1f}"))],
        of=lambda given: f"{given['questions']:,} puts"),
    Table("saved indexes", "building", "seconds", [
        ("`build`", number("build 1", "{:.3g}")), ("`save`", number("save", "{:.3g}")),
        ("`check`", number("check", "{:.3g}")), ("Runs", number("runs", COUNT)),
        ("Bytes of the file", number("bytes", COUNT)),
        ("Bytes a run", ratio("bytes", "runs", "{:.1f}"))],
        says_of_saved),
    Table("memory", "memory", "bytes beyond the keys", [
        (head, number(series, COUNT)) for head, series in (
            ("saved, ε 16", "saved 16"), ("ε 64", "saved 64"), ("`Index`, ε 16", "index 16"),
            ("ε 64", "index 64"), ("C++ PGM, ε 16", "pgm_16"), ("ε 64", "pgm_64"),
            ("by buckets, ε 16", "buckets_16"), ("RadixSpline, ε 16", "spline_16"),
            ("RMI 2^16", "rmi_16"), ("`btree_map`, with the keys", "btree_map"))],
        says_of_memory),
    Table("from C", "from_c", "threads; nanoseconds", [
        ("`kuldebiq_find`", number("hints")), ("handles side by side", number("beside")),
        ("64 bytes apart", number("apart"))], of=keys_and_questions),
)
