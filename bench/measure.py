#!/usr/bin/env python3
"""Measures the parts of bench/README.md; `run.sh` calls it, and says what its words are.

A part runs all sides of its tables in turn, so many rounds, and compares what they found. Its
record, with the numbers of all rounds (records.py), is written first; of that the tables
(tables.py, page.py) and the pictures (pictures.py) are made.
"""
import argparse
import hashlib
import os
import pathlib
import re
import subprocess
import sys
import time

import page
import records
from records import TOP
from tables import BOUNDS, EIGHT, NEIGHBOURS, WAYS

POINTS = TOP / "bench/points.py"
KINDS = EIGHT + ("numbers", "ids", "minutes")
# Pages of two megabytes, as the script `pgmtool` has them.
MOST = 4294967296
PAGES = (f"glibc.malloc.hugetlb=1:glibc.malloc.mmap_threshold={MOST}"
         f":glibc.malloc.trim_threshold={MOST}")
# A number of `bench` is the least of so many passes, of boxes of so many; so are its rivals'.
PASSES, BOX_PASSES = 3, 5
# A machine with more to do than this, on average of a minute, isn't quiet.
QUIET = 0.5


class Missing(Exception):
    """What a part lacks."""


class Runs:
    """The programs, the data and the rounds."""

    def __init__(self, given):
        self.made = pathlib.Path(given.made).resolve()
        self.given = given
        self.pgmtool = os.environ.get("PGMTOOL", TOP / "crates/pgmtool/out/pgmtool")
        self.bench = os.environ.get("BENCH", TOP / "crates/bench/out/bench")

    def folder(self):
        """Where the records are: in the tree, or beside the data for a try."""
        return self.made / "records" if self.given.print else records.FOLDER

    def rounds(self):
        return range(self.given.rounds)

    def rival(self, name):
        return self.made / name

    def has(self, name):
        """Whether a rival was built that not every machine has; says so where it wasn't."""
        there = os.path.exists(self.rival(name))
        if not there:
            print(f"without {name}, which wasn't built: run.sh says what it wants", file=sys.stderr)
        return there

    def run(self, program, *words, **how):
        """What a program writes."""
        if not os.path.exists(program):
            raise Missing(f"{program} isn't there")
        done = subprocess.run([program, *map(str, words)], stdout=subprocess.PIPE,
                              stderr=subprocess.PIPE, text=True, check=False, **how)
        if done.returncode:
            raise Missing(f"{program} ended with {done.returncode}: {done.stderr.strip()[-200:]}")
        return done.stdout

    def wall(self, program, *words, out=subprocess.DEVNULL):
        """The seconds of a process of the proved program, as the script starts it."""
        if not os.path.exists(program):
            raise Missing(f"{program} isn't there")
        start = time.perf_counter()
        subprocess.run([program, *map(str, words)], stdout=out, stderr=subprocess.DEVNULL,
                       check=True, env=dict(os.environ, GLIBC_TUNABLES=PAGES))
        return time.perf_counter() - start

    def file(self, name, *words):
        """A file of data, made where it isn't there; its words end with its name."""
        path = self.made / "data" / name
        if not path.exists():
            self.run(self.rival("make_inputs"), *words, path)
        return path

    def keys(self, kind):
        real = self.made / "data" / f"{kind}.keys"
        if kind not in KINDS:
            return real
        size, seed = self.given.size, self.given.seed
        return self.file(f"{kind}.{size}.{seed}.keys", "keys", kind, size, seed)

    def questions(self, kind):
        many, seed, keys = self.given.questions, self.given.seed, self.keys(kind)
        return self.file(f"{keys.stem}.{many}.questions", "questions", keys, many, seed)

    def kinds(self):
        """The kinds that are made, and the key files that somebody put beside them."""
        names = {path.stem for path in (self.made / "data").glob("*.keys")}
        return KINDS + tuple(sorted(name for name in names if "." not in name))

    def points(self, kind, dims):
        """A million points, where there are ten million keys; or those that somebody put there."""
        real = self.made / "data" / f"{kind}.points"
        if kind not in ("uniform", "clustered"):
            return real
        many, seed = self.given.size // 10, self.given.seed
        path = self.made / "data" / f"{kind}.{dims}.{many}.{seed}.points"
        if not path.exists():
            self.run(sys.executable, POINTS, "points", many, dims, kind, seed, path)
        return path

    def centres(self, points, dims, k):
        """A script of centres that ask for the k nearest points."""
        many, seed = self.given.questions // 100, self.given.seed
        path = points.with_suffix(f".{many}.{k}")
        if not path.exists():
            self.run(sys.executable, POINTS, "centres", many, dims, k, seed, points, path)
        return path

    def point_sets(self):
        """The kinds of points with their coordinates, and the files that somebody put there."""
        names = {path.stem for path in (self.made / "data").glob("*.points")}
        made = [(kind, dims) for kind in ("uniform", "clustered") for dims in (2, 3)]
        return made + [(name, 2) for name in sorted(names) if "." not in name]


def agree(what, found):
    """The one value that all sides found."""
    values = set(found.values())
    if len(values) != 1:
        raise Missing(f"{what}: the sides differ: {found}")
    return values.pop()


def rows_of(text, word):
    """The lines that begin with a word, each as its pairs of name and value."""
    for line in text.splitlines():
        words = line.split()
        if words and words[0] == word:
            yield dict(zip(words[::2], words[1::2]))


def asked(text, record, kind, names):
    """The three ways of `bench lookup` and `bench hints`, of each thing that was asked."""
    sums = re.findall(r"^checksum (\d+)$", text, re.M)
    for name, part in zip(names, text.split("checksum ")[1:]):
        for way in ("alone", "chained", "together"):
            nanoseconds = re.search(rf"^{way} (\d+)", part, re.M).group(1)
            record.add(kind, f"{name} {way}", int(nanoseconds))
    return sums


def by_rivals(runs, kind, record, sums, *names):
    """The rival's ways of these names: their times, and what they print."""
    ways = {}
    text = runs.run(runs.rival("lookups"), runs.keys(kind), runs.questions(kind), PASSES, *names)
    for way in rows_of(text, "way"):
        ways[way["way"]] = way
        for name in ("build", "alone", "chained", "together"):
            if float(way[name]):
                record.add(kind, f"{way['way']} {name}", float(way[name]))
        # Of numbers behind equal keys the spline promises nothing.
        if way["way"] != "spline_16":
            sums[way["way"]] = way["checksum"]
    return ways


def by_numpy(runs, kind, record, sums):
    """One call of numpy.searchsorted for all questions."""
    text = runs.run(sys.executable, TOP / "bench/rivals/searchsorted.py", runs.keys(kind),
                    runs.questions(kind), PASSES)
    way = next(rows_of(text, "way"))
    record.add(kind, "searchsorted together", int(way["together"]))
    sums["searchsorted"] = way["checksum"]


def lookups(runs, record):
    with_numpy = bool(record.versions.get("numpy"))
    if not with_numpy:
        print("without numpy, which this python3 hasn't (python3-numpy)", file=sys.stderr)
    for kind in runs.kinds():
        keys, questions, sums = runs.keys(kind), runs.questions(kind), {}
        for _ in runs.rounds():
            by_rivals(runs, kind, record, sums, "lower_bound", "halving", "pgm_64", "pgm_16",
                      "buckets_16", "spline_16", "rmi_16", "rmi_20")
            if with_numpy:
                by_numpy(runs, kind, record, sums)
            for eps, bits in ((64, ()), (16, (16,))):
                text = runs.run(runs.bench, "lookup", keys, questions, eps, *bits)
                names = f"{eps} index", f"{eps} buckets"
                for number, one in enumerate(asked(text, record, kind, names)):
                    sums[f"bench {eps} {number}"] = one
        agree(kind, sums)


def hints(runs, record):
    """Lookups over borrowed keys, and rivals: their times, and the bytes beyond the keys."""
    for kind in runs.kinds():
        keys, questions, sums = runs.keys(kind), runs.questions(kind), {}
        for _ in runs.rounds():
            ways = by_rivals(runs, kind, record, sums, "lower_bound", "halving", "pgm_16",
                             "pgm_64", "spline_16")
            for name, way in ways.items():
                record.put(kind, f"{name} bytes", int(way["bytes"]))
            for eps in (16, 64):
                text = runs.run(runs.bench, "hints", keys, questions, eps)
                names = f"{eps} own", f"{eps} other"
                for number, one in enumerate(asked(text, record, kind, names)):
                    sums[f"bench {eps} {number}"] = one
                for made in rows_of(text, "hints"):
                    name = f"{eps} {made['hints']}"
                    record.add(kind, f"{name} build", float(made["build"]) * 1e3)
                    record.put(kind, f"{name} bytes", int(made["bytes"]))
        agree(kind, sums)


def live_bytes(runs, kind, eps):
    """What an index in memory takes beyond its keys: what is held of malloc when it is built."""
    keys = runs.keys(kind)
    few = runs.file(f"{keys.stem}.16.questions", "questions", keys, 16, 1)
    shim = dict(os.environ, LD_PRELOAD=str(runs.made / "live_bytes.so"))
    done = subprocess.run([runs.bench, "lookup", keys, few, str(eps)], env=shim, text=True,
                          stdout=subprocess.DEVNULL, stderr=subprocess.PIPE, check=True)
    held = int(re.search(r"^live (\d+)", done.stderr, re.M).group(1))
    if held == 0:
        raise Missing(f"{runs.bench} takes its memory from elsewhere than malloc")
    return held - (keys.stat().st_size - 8)


def memory(runs, record):
    for kind in runs.kinds():
        keys = runs.keys(kind)
        text = runs.run(runs.rival("lookups"), keys, runs.questions(kind), 0)
        for eps in (16, 64):
            path = runs.made / "saved"
            with open(path, "wb") as file:
                runs.wall(runs.pgmtool, "save", keys, "--eps", eps, out=file)
            record.put(kind, f"saved {eps}", path.stat().st_size)
            record.put(kind, f"index {eps}", live_bytes(runs, kind, eps))
        for way in rows_of(text, "way"):
            record.put(kind, way["way"], int(way["bytes"]))


def building(runs, record):
    saved = runs.made / "saved"
    for kind in runs.kinds():
        keys, found = runs.keys(kind), {}
        for _ in runs.rounds():
            for workers in (1, 4):
                words = "build", keys, "--workers", workers
                record.add(kind, f"build {workers}", runs.wall(runs.pgmtool, *words))
            for what in ("build", "read"):
                record.add(kind, f"C++ {what}", runs.wall(runs.rival("reading"), what, keys))
            with open(saved, "wb") as file:
                words = "save", keys, "--workers", 1
                record.add(kind, "save", runs.wall(runs.pgmtool, *words, out=file))
            record.add(kind, "check", runs.wall(runs.pgmtool, "check", keys, saved))
        built = runs.run(runs.pgmtool, "build", keys)
        checked = runs.run(runs.pgmtool, "check", keys, saved).split()
        found["build"] = sum(int(number) for number in re.findall(r"runs (\d+)", built))
        found["check"] = int(checked[-1])
        record.put(kind, "runs", agree(kind, found))
        record.put(kind, "bytes", saved.stat().st_size)


def pieces(runs, record):
    """Pieces that are joined, and such as stand side by side."""
    for kind in ("uniform", "dense", "ids"):
        keys = runs.keys(kind)
        side_by_side = "relax", keys, "/dev/null", "--pieces", 32
        for name, words in (("runs", ("build", keys)), ("relaxed runs", side_by_side)):
            level = re.search(r"^level 0 .* runs (\d+)", runs.run(runs.pgmtool, *words), re.M)
            record.put(kind, name, int(level.group(1)))
        for _ in runs.rounds():
            for workers in (1, 2, 4):
                for name, words in (("build", ("build", keys)), ("relax", side_by_side)):
                    taken = runs.wall(runs.pgmtool, *words, "--workers", workers)
                    record.add(kind, f"{name} {workers}", taken)


def questions(runs, record):
    for kind in runs.kinds():
        keys, asked_for, texts = runs.keys(kind), runs.questions(kind), {}
        script = runs.file(f"{asked_for.stem}.finds", "finds", asked_for)
        sides = {"by itself": (runs.rival("questions"), (keys, script))}
        for workers in (1, 4):
            words = "query", keys, script, "--workers", workers
            sides[f"query {workers}"] = runs.pgmtool, words
        for _ in runs.rounds():
            for side, (program, words) in sides.items():
                path = runs.made / "answers"
                with open(path, "wb") as file:
                    record.add(kind, side, runs.wall(program, *words, out=file))
                texts[side] = hashlib.sha256(path.read_bytes()).hexdigest()
        agree(kind, texts)


def segmenting(runs, record):
    def each(program, *words):
        line = next(rows_of(runs.run(program, *words), "keys"))
        return line["runs"], int(line["nanoseconds"]) / int(line["keys"])

    for kind in runs.kinds():
        keys = runs.keys(kind)
        for _ in runs.rounds():
            for eps in BOUNDS:
                found = {}
                for side, program, words in (("C++", runs.rival("fitter"), (keys, eps, PASSES)),
                                             ("segment", runs.bench, ("segment", keys, eps))):
                    found[side], nanoseconds = each(program, *words)
                    record.add(kind, f"{side} {eps}", nanoseconds)
                agree(f"{kind}, ε {eps}", found)
            for workers in (1, 2, 4):
                _, nanoseconds = each(runs.bench, "segment", keys, 64, workers)
                record.add(kind, f"pieces {workers}", nanoseconds)


SETS = ("square1e-6", "square1e-4", "square1e-2", "square1e-1", "thin1e-4")


def our_boxes(text):
    """Of each script of `bench box` what was found, and the nanoseconds of its ways."""
    found, times, script = {}, {}, None
    for line in text.splitlines():
        name, *rest = line.split()
        if name == "script":
            script = rest[0]
        elif name == "found":
            found[script] = rest[0], rest[4]
        elif name in WAYS:
            times[script, name] = float(rest[0])
    return found, times


def boxes(runs, record):
    many, seed = runs.given.size // 10, runs.given.seed
    rivals = {"C++": ("boxes", "time")}
    if runs.has("boost_rtree"):
        rivals["Boost"] = "boost_rtree", "box"
    for kind, dims in ((kind, dims) for kind in ("uniform", "clustered") for dims in (2, 3)):
        base = runs.made / "data" / f"{kind}{dims}d.{many}.{seed}"
        if not base.with_name(base.name + ".points").exists():
            runs.run(runs.rival("boxes"), "make", kind, many, dims, seed, base)
        rows = {f"{base}.{name}": f"{kind}{dims}d, {name.replace('1e', ' 1e')}" for name in SETS}
        found = {script: {} for script in rows}
        for _ in runs.rounds():
            for side, (program, what) in rivals.items():
                words = what, f"{base}.points", dims, BOX_PASSES, *rows
                for line in rows_of(runs.run(runs.rival(program), *words), "script"):
                    record.add(rows[line["script"]], side, float(line["nanoseconds"]))
                    found[line["script"]][side] = line["found"], line["checksum"]
            text = runs.run(runs.bench, "box", f"{base}.points", dims, *rows)
            made, (ours, times) = next(rows_of(text, "codes")), our_boxes(text)
            for script, row in rows.items():
                found[script]["bench"] = ours[script]
                for way in WAYS:
                    record.add(row, way, times[script, way])
                record.put(row, "codes bytes", int(made["codes"]))
                record.put(row, "hints bytes", int(made["hints"]))
                record.add(row, "hints build", float(made["build"]))
        for script, sides in found.items():
            agree(script, sides)


def nearest_rivals(runs):
    """The programs by Euclid's distance, each with its words before the points."""
    rivals = {"tree by Euclid": (runs.rival("kd_tree"), "euclid")}
    if runs.has("boost_rtree"):
        rivals["Boost"] = runs.rival("boost_rtree"), "near"
    if runs.has("nanoflann_tree"):
        rivals["nanoflann"] = (runs.rival("nanoflann_tree"),)
    return rivals


def of_each_k(record, row, found, side, lines, points="found"):
    """The times of a side, and what it found, of a script's line for each number of neighbours."""
    for line, k in zip(lines, NEIGHBOURS):
        record.add(row, f"{side} {k}", float(line["nanoseconds"]))
        found.setdefault(k, {})[side] = line[points], line["distances"]


def rounded(found):
    """Sums of distances that may differ in their last bits."""
    return {side: (many, f"{float(distances):.9e}") for side, (many, distances) in found.items()}


def near(runs, record):
    """The search for the nearest points by itself, by the greatest difference of a coordinate and
    by Euclid's distance."""
    for kind, dims in runs.point_sets():
        points, row, found, euclid = runs.points(kind, dims), f"{kind}, {dims} coordinates", {}, {}
        scripts = [runs.centres(points, dims, k) for k in NEIGHBOURS]
        for _ in runs.rounds():
            text = runs.run(runs.rival("kd_tree"), points, dims, PASSES, *scripts)
            of_each_k(record, row, found, "tree", rows_of(text, "script"))
            text = runs.run(runs.bench, "near", points, dims, *scripts)
            lines = ({**script, **sums} for script, sums in zip(rows_of(text, "script"),
                                                                rows_of(text, "distances")))
            of_each_k(record, row, found, "near", lines, "points")
            of_each_k(record, row, found, "places", rows_of(text, "chebyshev"), "chebyshev")
            of_each_k(record, row, euclid, "places by Euclid", rows_of(text, "euclid"), "euclid")
            for side, words in nearest_rivals(runs).items():
                text = runs.run(*words, points, dims, PASSES, *scripts)
                of_each_k(record, row, euclid, side, rows_of(text, "script"))
        for k in NEIGHBOURS:
            agree(f"{row}, k = {k}", found[k])
            agree(f"{row}, k = {k}, by Euclid", rounded(euclid[k]))


def nearest(runs, record):
    """The command `near`, with reading its script and writing its text."""
    centres = runs.given.questions // 100
    for kind in ("uniform", "clustered"):
        data = runs.points(kind, 2)
        for k in NEIGHBOURS:
            script, found = runs.centres(data, 2, k), {}
            for _ in runs.rounds():
                record.add(kind, f"run {k}", runs.wall(runs.pgmtool, "near", data, script))
                record.add(kind, f"none {k}", runs.wall(runs.pgmtool, "near", data, "/dev/null"))
                text = runs.run(runs.rival("kd_tree"), data, 2, PASSES, script)
                line = next(rows_of(text, "script"))
                record.add(kind, f"tree {k}", float(line["nanoseconds"]))
                found["tree"] = int(line["distances"])
            text = runs.run(runs.pgmtool, "near", data, script)
            found["near"] = sum(int(line.split()[2]) for line in text.splitlines()
                                if line.startswith("point"))
            agree(f"{kind}, k = {k}", found)
            each = (record.least(kind, f"run {k}") - record.least(kind, f"none {k}")) / centres
            record.put(kind, f"near {k}", each * 1e9)


def ordered_map(runs, record):
    size, sums = runs.given.size // 10, {}
    for _ in runs.rounds():
        for side, program, words in (("LogMap", runs.bench, ("map", size)),
                                     ("btree_map", runs.rival("ordered_maps"), ("tree", size))):
            for line in runs.run(program, *words).splitlines():
                work, nanoseconds, _, checksum = line.split()
                record.add(work, side, float(nanoseconds))
                sums.setdefault(work, {})[side] = checksum
    for work, found in sums.items():
        if len(found) != 2:
            raise Missing(f"{work} is of one side alone")
        agree(work, found)


def readers(runs, record):
    size, sums = runs.given.size // 10, {}
    for _ in runs.rounds():
        for side, program, words in (("map", runs.bench, ("read", size, runs.given.questions)),
                                     ("tree", runs.rival("locked_tree"),
                                      (size, runs.given.questions))):
            text = runs.run(program, *words)
            sums[side] = tuple(re.findall(r" sum (\d+)$", text, re.M))
            for line in rows_of(text, "readers"):
                row = f"{line['readers']} reader{'s' if line['readers'] != '1' else ''}"
                name = f"{side} {'publishing' if line['writing'] == 'true' else 'still'}"
                record.add(row, f"{name} looks", float(line["looks"]))
                record.add(row, f"{name} batches", int(line["batches"]))
        agree("sums of the looks", sums)


def senders(runs, record):
    many, seed = runs.given.questions, runs.given.seed
    script = runs.file(f"{many}.{seed}.puts", "puts", many, seed)
    queues = [("deque", "locked_deque")]
    if runs.has("concurrent_queue"):
        queues.append(("queue", "concurrent_queue"))
    for count in (1, 2, 4):
        row = f"{count} sender{'s' if count > 1 else ''}"
        for _ in runs.rounds():
            for name, program in queues:
                for way in ("yield", "wait"):
                    text = runs.run(runs.rival(program), many, count, way)
                    record.add(row, f"{name} {way}", float(text.split()[0]))
            options = (script, "--batch", 65536)
            for name, words in (("mix", ("--senders", count)), ("replay", ("--readers", 1))):
                record.add(row, name, runs.wall(runs.pgmtool, name, *options, *words))
        beyond = record.least(row, "mix") - record.least(row, "replay")
        record.put(row, "mix beyond replay", beyond)


def runs_of_level_0(path):
    """A sum over the lines of level 0, without their endings."""
    summed, endings = hashlib.sha256(), re.compile(r" cut .*$| end$")
    with open(path, encoding="ascii") as file:
        for line in file:
            if line.startswith("level 1 "):
                break
            if not line.startswith("keys "):
                summed.update(endings.sub("", line.rstrip("\n")).encode())
    return summed.hexdigest()


def explain(runs, record):
    keys, texts = runs.keys("uniform"), {}
    for _ in runs.rounds():
        for side, program, words in (
                ("pgmtool", runs.pgmtool, ("explain", keys, "--eps", 0)),
                ("plain", runs.rival("plain"), (keys, 0))):
            path = runs.made / f"{side}.txt"
            before = os.times()
            with open(path, "wb") as file:
                record.add(f"`{side}`", "wall", runs.wall(program, *words, out=file))
            after = os.times()
            used = after.children_user + after.children_system
            record.add(f"`{side}`", "processor",
                       used - before.children_user - before.children_system)
            record.put(f"`{side}`", "output", path.stat().st_size)
            texts[side] = runs_of_level_0(path)
    agree("explain", texts)


def from_c(runs, record):
    """Threads that ask at once, over the library that examples/install.sh made."""
    prefix = pathlib.Path(os.environ.get("KULDEBIQ", TOP / "out/kuldebiq"))
    archive, program = prefix / "lib/libkuldebiq.a", runs.made / "threads"
    if not archive.exists():
        raise Missing(f"{archive} isn't there: examples/install.sh {prefix}")
    subprocess.run([os.environ.get("CXX", "c++"), "-std=c++20", "-O2", "-pthread",
                    f"-I{prefix}/include", TOP / "examples/cpp/threads.cpp", archive, "-o",
                    program], check=True)
    for _ in runs.rounds():
        text = runs.run(program, runs.given.size, runs.given.questions)
        for line in text.splitlines()[1:]:
            threads, *nanoseconds = line.split()
            row = f"{threads} thread{'s' if threads != '1' else ''}"
            for series, each in zip(("hints", "beside", "apart"), nanoseconds):
                record.add(row, series, float(each))


# The indexes that are drawn: name, key file or how it is made, and what `explain` is told.
LEVELS = (("primes", TOP / "data/primes.keys", ("--eps", 16)),
          ("four", TOP / "data/four.keys", ("--eps", 0, "--rec", 0)),
          ("ids", ("ids.6000.1.keys", "keys", "ids", 6000, 1), ("--eps", 64)))


def levels(runs):
    """Draws indexes: nothing is measured."""
    folder = (runs.made if runs.given.print else TOP / "docs") / "pictures"
    folder.mkdir(parents=True, exist_ok=True)
    for name, keys, options in LEVELS:
        keys = keys if isinstance(keys, pathlib.Path) else runs.file(*keys)
        text = runs.made / f"{name}.txt"
        text.write_text(runs.run(runs.pgmtool, "explain", keys, *options))
        drawn = runs.run(sys.executable, TOP / "dev/picture.py", keys, text)
        (folder / f"{name}.svg").write_text(drawn)


PARTS = {"lookups": lookups, "hints": hints, "memory": memory, "building": building,
         "segmenting": segmenting, "pieces": pieces, "questions": questions, "boxes": boxes,
         "near": near, "nearest": nearest, "map": ordered_map, "readers": readers,
         "senders": senders, "explain": explain, "from_c": from_c, "levels": levels}


def measured(runs, part):
    """Measures a part, and shows and keeps its record."""
    given = {name: getattr(runs.given, name) for name in ("size", "questions", "rounds", "seed")}
    record = records.begun(part, given)
    PARTS[part](runs, record)
    record.machine["load after"] = round(os.getloadavg()[0], 1)
    records.save(record, runs.folder())
    print(records.shown(record), flush=True)
    return record


def written(runs, record):
    """Makes the tables and the pictures of a record: in the tree, or for a try on the screen and
    beside the data."""
    is_try = runs.given.print
    if is_try:
        for name, text in page.texts_of(record):
            print(f"{name}: {text}\n", flush=True)
    else:
        page.write(record)
    try:
        import pictures
    except ImportError as lacks:
        raise Missing(f"its pictures: {lacks} (python3-matplotlib, python3-numpy)") from lacks
    pictures.draw(record.part, runs.made if is_try else TOP / "docs", runs.folder())


def made(runs, part):
    """Makes what a part shows: of what it measures now, or of its record."""
    if part == "levels":
        levels(runs)
        return
    record = records.read(part, runs.folder()) if runs.given.tables else measured(runs, part)
    if record:
        written(runs, record)


def wanted():
    """What is asked for on the command line."""
    asked_for = argparse.ArgumentParser(description=__doc__)
    asked_for.add_argument("made")
    asked_for.add_argument("parts", nargs="*", metavar="PART")
    for name, default in (("size", 10_000_000), ("questions", 1_000_000), ("rounds", 3),
                          ("seed", 1)):
        asked_for.add_argument(f"--{name}", type=int, default=default)
    asked_for.add_argument("--print", action="store_true")
    asked_for.add_argument("--tables", action="store_true")
    given = asked_for.parse_intermixed_args()
    unknown = [part for part in given.parts if part not in PARTS]
    if unknown:
        asked_for.error(f"no part {unknown[0]}; there are {', '.join(PARTS)}")
    return given


def main():
    given = wanted()
    runs, left_out = Runs(given), 0
    load = os.getloadavg()[0]
    if load > QUIET and not given.tables:
        print(f"the machine isn't quiet: its load is {load:.1f}", file=sys.stderr)
    # What is drawn of indexes has no record: it wants the program.
    for part in given.parts or [part for part in PARTS if part != "levels" or not given.tables]:
        start = time.monotonic()
        try:
            made(runs, part)
        except (Missing, OSError, ValueError, subprocess.CalledProcessError) as missing:
            left_out += 1
            print(f"{part}: left out, {missing}", file=sys.stderr)
        print(f"{part}: {time.monotonic() - start:.0f} seconds", file=sys.stderr)
    return 1 if left_out else 0


if __name__ == "__main__":
    sys.exit(main())
