"""Writes what the records hold into bench/README.md: the tables of tables.py between their marks,
and what each part shows in short."""
import re
import statistics
import textwrap

import records
from records import mean
from tables import (EIGHT, PAGE, REGULAR, TABLES, WAYS, between, fitted, over_neighbours, parts,
                    rate)

# What each part measures: crates with all that they are built of, modules of `bench`, and rivals.
LOOKUPS = "lookups.cpp", "learned.hpp", "pgm_index.hpp", "searches.hpp", "make_inputs.cpp"
MEASURES = {
    "lookups": (("bucketed", "levels"), ("lookups",), (*LOOKUPS, "searchsorted.py")),
    "hints": (("hints",), ("borrowed",), LOOKUPS),
    "memory": (("levels", "index_file"), ("lookups",), LOOKUPS),
    "building": (("levels", "index_file", "sosd_reader"), (), ("reading.cpp", "pgm_index.hpp")),
    "segmenting": (("segmenter", "piece_join"), ("segmenting",), ("fitter.cpp", "pgm_index.hpp")),
    "pieces": (("levels", "sosd_reader"), (), ()),
    "questions": (("commands", "sosd_reader"), (), ("questions.cpp", "searches.hpp")),
    "boxes": (("boxes",), ("regions", "visiting"), ("boxes.cpp", "points.hpp", "boost_rtree.cpp")),
    "near": (("near", "neighbours"), ("nearest",), ("kd_tree.cpp", "points.hpp", "boost_rtree.cpp",
                                       "nanoflann_tree.cpp")),
    "nearest": (("near", "commands"), (), ("kd_tree.cpp", "points.hpp")),
    "map": (("log_levels",), ("map",), ("ordered_maps.cpp",)),
    "readers": (("published",), ("readers",), ("locked_tree.cpp",)),
    "senders": (("map_commands",), (), ("locked_deque.cpp", "concurrent_queue.cpp", "senders.hpp")),
    "explain": (("commands", "sosd_reader"), (), ("plain.cpp",)),
    "from_c": (("kuldebiq",), (), ()),
}


def measured_files(part):
    """The crates that a part measures, and the other files."""
    crates, modules, rivals = MEASURES[part]
    return crates, [*(f"crates/bench/src/{module}.rt" for module in modules),
                    *(f"bench/rivals/{name}" for name in rivals)]


def age(record):
    """A sentence where the sources of what a record measured have changed since."""
    changed = records.changes(record, *measured_files(record.part))
    if changed is None:
        return f"**Older than a change**: commit {record.commit} isn't in this history."
    if not changed:
        return ""
    names = [re.sub(r"^crates/(\w+)/src$", r"\1", path) for path in changed]
    few = ", ".join(f"`{name}`" for name in names[:4])
    more = f" and {len(names) - 4} more" if len(names) > 4 else ""
    return f"**Older than a change** of what it measures: {few}{more}."


def rounds(record):
    """What is said of the rounds: how many, and how far apart they were."""
    many = record.given["rounds"]
    if many == 1:
        return "one round"
    said = f"the best of {many} rounds in turn"
    found = records.spread(record)
    if not found:
        return said + ", of which no other is kept"
    medians, greatest = zip(*found)
    return (f"{said}; a median is {statistics.median(medians):.2f} of its least in the middle and "
            f"{max(medians):.2f} at most, a greatest {statistics.median(greatest):.2f} and "
            f"{max(greatest):.2f}")


def measured_on(record, of):
    """A line on what was measured, the rounds, the machine and the sources."""
    machine, given = record.machine, record.given
    load = machine.get("load before", machine.get("load"))
    load = "" if load is None else f", load {load}"
    return (f"{of(given)}, {rounds(record)}; seed {given['seed']}; {machine['processor']}, "
            f"{machine['processors']} processors{load}; commit {record.commit}.")


def text_of(table, record):
    """A table with what stands below it."""
    rows, columns = table.rows or {row: row for row in record.numbers}, []
    cells = {row: [cell(record, row) for _, cell in table.columns] for row in rows}
    cells = {row: found for row, found in cells.items() if any(cell is not None for cell in found)}
    for place, (head, _) in enumerate(table.columns):
        if any(found[place] is not None for found in cells.values()):
            columns.append((place, head))
    lines = [[f"{record.day}, {record.commit}: {table.corner}", *(head for _, head in columns)],
             ["---"] * (len(columns) + 1)]
    for row, found in cells.items():
        lines.append([rows[row], *("-" if found[place] is None else found[place]
                                   for place, _ in columns)])
    made = "\n".join("| " + " | ".join(map(str, line)) + " |" for line in lines)
    made = made.replace("| --- |", "|---|").replace(" --- |", "---|")
    below = table.says(record), measured_on(record, table.of), age(record)
    filled = [textwrap.fill(text, 100, break_on_hyphens=False) for text in (table.picture, *below)]
    texts = [filled[0], made, *filled[1:]]
    return "\n" + "\n\n".join(text for text in texts if text) + "\n"


# What a part shows in short.

def share(record, way, base="lower_bound alone", rows=EIGHT):
    return f"{mean(parts(record, way, base, rows)):.2f}"


def of_both(record, way, base):
    """A mean over the eight kinds, and over the regular ones where they were measured."""
    regular = parts(record, way, base, REGULAR)
    return share(record, way, base) + (f" ({mean(regular):.2f})" if regular else "")


def seen_lookups(record):
    def part(way):
        return of_both(record, way, "lower_bound alone")
    return (f"one at a time {part('16 index alone')} of the former in the mean with ε 16 and "
            f"{part('64 index alone')} with ε 64, where the latter takes "
            f"{part('pgm_16 alone')} and {part('pgm_64 alone')}; sixteen together "
            f"{part('16 index together')} and {part('64 index together')}")


def seen_hints(record):
    def part(way):
        return of_both(record, way, "lower_bound alone")
    return (f"{part('16 own alone')} of the former in the mean with ε 16, where the latter takes "
            f"{part('pgm_16 alone')}; {part('16 own together')} sixteen together; "
            f"{mean(parts(record, '16 own bytes', 'pgm_16 bytes', EIGHT)):.1f} times the latter's "
            f"bytes, and {of_both(record, '16 own build', 'pgm_16 build')} of its time of building")


def seen_segmenting(record):
    eight, regular = fitted(record, EIGHT), fitted(record, REGULAR)
    said = f"{between(eight)} of its time, {mean(eight):.2f} in the mean"
    said += f" ({mean(regular):.2f})" if regular else ""
    return f"{said}; by four workers {of_both(record, 'pieces 4', 'C++ 64')} with ε 64"


def seen_building(record):
    one, four = (of_both(record, f"build {workers}", "C++ build") for workers in (1, 4))
    return (f"`build` takes {one} of a C++ program's time in the mean with one worker, {four} with "
            "four")


def seen_questions(record):
    one, four = (of_both(record, f"query {workers}", "by itself") for workers in (1, 4))
    return (f"`query` takes {one} of the time of halving sixteen together with one worker, {four} "
            "with four")


def seen_boxes(record):
    count, visit = (mean(parts(record, way, "C++", None)) for way in (WAYS[0], WAYS[-1]))
    return f"{count:.2f} to {visit:.2f} of its time in the mean"


def seen_near(record):
    return f"the search takes {over_neighbours(record, 'near', 'tree')} of the tree's time"


def seen_map(record):
    def part(work):
        return f"{record.least(work, 'LogMap') / record.least(work, 'btree_map'):.2f}"
    return (f"puts {part('put')}, finds {part('hit')}, of keys that aren't there {part('miss')}, "
            f"`next` {part('next')} to {part('next3')}, ranges {part('range')} and "
            f"{part('range2')}, a walk {part('walk')} and {part('walk2')}, a load {part('load')}")


def seen_readers(record):
    (ours, batches), (theirs, beside) = (
        (record.most("4 readers", f"{side} publishing looks"),
         record.at_most("4 readers", f"{side} publishing batches", f"{side} publishing looks"))
        for side in ("map", "tree"))
    return (f"{ours:.2f} million looks a second of four readers beside {batches} batches, where "
            f"the tree has {theirs:.2f} beside {beside}")


def seen_senders(record):
    rows = "1 sender", "2 senders", "4 senders"
    ours, theirs = (", ".join(rate(series, form)(record, row) for row in rows)
                    for series, form in (("mix beyond replay", "{:.1f}"),
                                         ("deque yield", "{:.2f}")))
    return (f"{ours} million updates a second by one, two and four senders, where the deque has "
            f"{theirs}")


def seen_explain(record):
    part = record.least("`pgmtool`", "processor") / record.least("`plain`", "processor")
    return f"{part:.2f} of its processor time"


SEEN = {"lookups": seen_lookups, "hints": seen_hints, "segmenting": seen_segmenting,
        "building": seen_building, "questions": seen_questions, "boxes": seen_boxes,
        "near": seen_near, "map": seen_map, "readers": seen_readers, "senders": seen_senders,
        "explain": seen_explain}


def has_cells(table, record):
    return any(cell(record, row) is not None for _, cell in table.columns
               for row in table.rows or record.numbers)


def texts_of(record):
    """What a record gives the page, each with the name of its marks."""
    texts = [(table.name, text_of(table, record)) for table in TABLES
             if table.part == record.part and has_cells(table, record)]
    if record.part in SEEN:
        texts.append((f"seen {record.part}", SEEN[record.part](record)))
    return texts


def write(record):
    """Writes what a record gives the page between its marks."""
    page = PAGE.read_text()
    for name, text in texts_of(record):
        begin, end = f"<!-- {name} -->", f"<!-- end of {name} -->"
        if begin not in page or end not in page:
            raise ValueError(f"{PAGE} has no marks for `{name}`")
        page = page.split(begin)[0] + begin + text + end + page.split(end)[1]
    PAGE.write_text(page)
