"""The record of a part's last run: the numbers of all its rounds, and what they were measured on.

bench/records/PART.json has
    part, day, commit   what was measured, and when; the commit of the sources ends with `-dirty`
                        where they had changed since
    source              `measured`; or `table of DAY`, where nothing but a table is left of the run:
                        one number a cell, the least of its rounds
    machine             processor, how many, system, and its load before and after the run
    versions            of the compiler, of python3, and of the rivals that others wrote
    given               size, questions, rounds, seed
    numbers             of each row and each series a number for each round
"""
import datetime
import json
import math
import os
import pathlib
import platform
import re
import statistics
import subprocess
import sys

TOP = pathlib.Path(__file__).resolve().parent.parent
FOLDER = TOP / "bench/records"
# What may have changed a number: the program's sources, and the rivals.
SOURCES = "crates", "crates.txt", "bench/rivals"
PACKAGES = "libabsl-dev", "libboost-dev", "libnanoflann-dev", "libconcurrentqueue-dev"


class Record:
    """The numbers of a part, by row and series."""

    def __init__(self, **fields):
        self.fields = {"numbers": {}, **fields}

    def __getattr__(self, name):
        try:
            return self.fields[name]
        except KeyError:
            raise AttributeError(name) from None

    def add(self, row, series, value):
        self.numbers.setdefault(row, {}).setdefault(series, []).append(value)

    def put(self, row, series, value):
        """A number that is the same in all rounds."""
        self.numbers.setdefault(row, {})[series] = [value]

    def rounds_of(self, row, series):
        return self.numbers.get(row, {}).get(series, [])

    def least(self, row, series):
        """The least of the rounds, and None where there is no such number."""
        return min(self.rounds_of(row, series), default=None)

    def most(self, row, series):
        return max(self.rounds_of(row, series), default=None)

    def at_most(self, row, series, of):
        """A number of the round in which another one was most."""
        rounds = self.rounds_of(row, of)
        return self.rounds_of(row, series)[rounds.index(max(rounds))] if rounds else None

    def least_of(self, series, rows=None):
        """The least numbers of a series, of all rows or of these, where all have one."""
        values = [self.least(row, series) for row in rows or self.numbers]
        return [] if None in values else values


def mean(values):
    """The geometric mean."""
    values = list(values)
    return math.exp(sum(map(math.log, values)) / len(values))


def path_of(part, folder=FOLDER):
    return pathlib.Path(folder) / f"{part}.json"


def read(part, folder=FOLDER):
    """The record of a part, and None where there is none."""
    path = path_of(part, folder)
    return Record(**json.loads(path.read_text())) if path.exists() else None


def save(record, folder=FOLDER):
    """Writes a record, a line for each series."""
    path = path_of(record.part, folder)
    path.parent.mkdir(parents=True, exist_ok=True)
    head = [f" {json.dumps(name)}: {json.dumps(value, ensure_ascii=False)},"
            for name, value in record.fields.items() if name != "numbers"]
    rows = []
    for row, series in record.numbers.items():
        lines = [f"   {json.dumps(name, ensure_ascii=False)}: {json.dumps(values)}"
                 for name, values in series.items()]
        rows.append(f"  {json.dumps(row, ensure_ascii=False)}: {{\n" + ",\n".join(lines) + "\n  }")
    numbers = ' "numbers": {\n' + ",\n".join(rows) + "\n }"
    path.write_text("\n".join(["{", *head, numbers, "}"]) + "\n")


def begun(part, given):
    """A record of a part that is measured now."""
    return Record(part=part, day=str(datetime.date.today()), commit=commit(), source="measured",
                  machine=machine(), versions=versions(), given=given)


def machine():
    with open("/proc/cpuinfo", encoding="utf-8") as file:
        model = re.search(r"model name\s*: (.*)", file.read())
    return {"processor": model.group(1) if model else "an unknown processor",
            "processors": os.cpu_count(), "system": f"{platform.system()} {platform.release()}",
            "load before": round(os.getloadavg()[0], 1)}


def said_by(*words):
    """What a program writes, without the end of its last line; empty where it fails."""
    try:
        done = subprocess.run(words, stdout=subprocess.PIPE, stderr=subprocess.DEVNULL, text=True,
                              check=False)
    except OSError:
        return ""
    return done.stdout.strip() if done.returncode == 0 else ""


def versions():
    """Those of the compiler, of python3 and its numpy, and of Debian's packages."""
    known = {"c++": said_by(os.environ.get("CXX", "c++"), "--version").split("\n")[0],
             "python3": platform.python_version(),
             "numpy": said_by(sys.executable, "-c", "import numpy; print(numpy.__version__)")}
    for package in PACKAGES:
        known[package] = said_by("dpkg-query", "-W", "-f", "${Version}", package)
    return {name: version for name, version in known.items() if version}


def git(*words):
    return said_by("git", "-C", str(TOP), *words)


def commit():
    """The commit of what is measured, `-dirty` where programs or rivals have changed since."""
    changed = git("status", "--porcelain", "--", *SOURCES)
    return git("rev-parse", "--short", "HEAD") + ("-dirty" if changed else "")


def crates_below(crates):
    """The crates of these names, and all that they are built of, by crates.txt."""
    below = {}
    for line in (TOP / "crates.txt").read_text().splitlines():
        if ":" in line and not line.startswith("#"):
            name, others = line.split(":")
            below[name.split()[0]] = others.split()
    found, left = set(), list(crates)
    while left:
        crate = left.pop()
        if crate not in found:
            found.add(crate)
            left += below.get(crate, [])
    return sorted(crate for crate in found if crate in below)


def changes(record, crates, files):
    """What has changed of what a record measured: paths, or None where the commit isn't known."""
    since = record.commit.removesuffix("-dirty")
    if not git("rev-parse", "--verify", "--quiet", f"{since}^{{commit}}"):
        return None
    paths = [f"crates/{crate}/src" for crate in crates_below(crates)] + list(files)
    return [path for path in paths if git("log", "-1", "--format=%h", f"{since}..HEAD", "--", path)]


def spread(record):
    """Of all series of several rounds: median and greatest, as parts of the least."""
    found = []
    for series in record.numbers.values():
        for values in series.values():
            if len(values) > 1 and min(values) > 0:
                found.append((statistics.median(values) / min(values), max(values) / min(values)))
    return found


def shown(record):
    """All numbers of a record as text: of each series least, median and greatest."""
    lines = [f"{record.part}: least, median, greatest, and what the greatest has beyond the least"]
    for row, series in record.numbers.items():
        for name, values in series.items():
            low, high = min(values), max(values)
            beyond = f"{100 * (high / low - 1):.0f}%" if low > 0 else "-"
            numbers = (f"{value:,.6g}" for value in (low, statistics.median(values), high))
            lines.append(f"  {row}, {name}: {', '.join(numbers)}, {beyond}")
    return "\n".join(lines)
