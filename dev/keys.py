#!/usr/bin/env python3
"""Makes a key file or a point file of numbers: keys.py [OPTION ..] NUMBERS FILE

NUMBERS is a text with a number a line; a CSV file (.csv, or .tsv with tabs); an array that numpy
saved (.npy); a table in Parquet (.parquet), if pandas can read it; or `-`, text from standard
input. FILE is what `pgmtool` reads: the count, and then the numbers, lowest byte first. Keys are
sorted; they are whole numbers from 0 to 2^64 - 1, or to 2^32 - 1 with --narrow. Blank lines, and
lines of a text that begin with #, are left out, and so is a byte order mark.

A map turns other values into such numbers and keeps their order:

    --scale N         decimals, times N; what isn't whole then is refused, and nothing is rounded
    --signed          numbers below 0, too: half of the range is added
    --offset N        N is added; it may be negative
    --float           doubles, by value; a text with more digits than a double holds is refused
    --time            ISO dates, with a time or without, as microseconds from the year 1 on; those
                      with a zone are converted to UTC
    --nanoseconds     these as nanoseconds, from 1677 to 2262
    --prefix          the first eight bytes of a text; texts with the same ones have the same key

--scale goes with --signed or --offset; the scale is applied first. Each map has its inverse:

    keys.py [MAP ..] --key VALUE ..     the key of each value, to ask for
    keys.py [MAP ..] --back KEY ..      the value of each key, to print

The other options:

    --column C        the column C of a table or a CSV file: its name, as in the first line of a CSV
                      file, or, if no line has names, its number, from 1 on
    --separator S     what separates the cells of a CSV file, if not a comma; with --column also of
                      a file that has another name
    --skip-empty      leaves out rows with an empty cell, or one that says NaN, NA, NaT, null or
                      None
    --narrow          keys of 4 bytes, for --narrow of `pgmtool`
    --points          points for `box` and `near`, in the order in which they come: 2 to 4 numbers a
                      line, as many --column, or an array of so many columns; each below 2^32, 2^21
                      or 2^16, as they are 2, 3 or 4
    --rows ROWS       writes a text with a line for each key, in their order: the key, and the row
                      that it comes from. For points: the code and the row, by rising code. Equal
                      ones stand in the order of their rows. Rows of a text or a CSV file are its
                      lines, counted from 1; those of an array or a table are counted from 0

If rows are wrong, it reports the first twenty on standard error, each with the option that would
help, writes nothing and ends with 1. It ends with 2 if the words are wrong. Texts and CSV files are
read without numpy, too: a million lines take seconds then, and half a second with numpy.
"""
import argparse
import array
import csv
import importlib.util
import io
import math
import os
import sys

import key_maps
from key_maps import Refused

MOST = (1 << 32) - 1
# How many wrong rows are shown.
TOLD = 20
# Bytes in front of a text and behind it, so that eight of them can be taken together.
SPARE = 32
COORDINATES = {2: 1 << 32, 3: 1 << 21, 4: 1 << 16}
BOM = b"\xef\xbb\xbf"
SEPARATORS = {".csv": ",", ".tsv": "\t", ".tab": "\t"}
AGAIN = "KEYS_PY_AGAIN"
# A text of more bytes is worth another interpreter, if that has numpy.
LARGE = 1 << 20


class Wrong(Exception):
    """What is wrong with the numbers as a whole."""


class Source:
    """Columns of cells, which are lists of texts, cells of a text or arrays; the row of each; and
    how a row is named."""

    def __init__(self, name, columns, rows, is_text):
        self.name, self.columns, self.rows, self.is_text = name, columns, rows, is_text

    def place(self, index):
        row = self.rows[index]
        return f"{self.name}:{row}" if self.is_text else f"{self.name}: row {row}"


def numpy_or_none():
    return importlib.import_module("key_columns") if importlib.util.find_spec("numpy") else None


def go_on_with(module):
    """Goes on with an interpreter that has a module, where this one lacks it and another is found;
    gives those that were tried."""
    tried = [sys.executable]
    if importlib.util.find_spec(module) or AGAIN in os.environ:
        return tried
    # Here, since they take a while to be read.
    import shutil
    import subprocess
    for folder in [*os.environ.get("PATH", "").split(os.pathsep), "/usr/bin"]:
        python = shutil.which("python3", path=folder)
        if python and python not in tried:
            tried.append(python)
            seeks = f"import importlib.util as it, sys; sys.exit(not it.find_spec({module!r}))"
            if subprocess.run([python, "-c", seeks], stderr=subprocess.DEVNULL).returncode == 0:
                os.execve(python, [python, *sys.argv], {**os.environ, AGAIN: "1"})
    return tried


def need(module, what):
    tried = go_on_with(module)
    if importlib.util.find_spec(module):
        return
    raise Wrong(f"{what} wants {module}, which none of these has: {', '.join(tried)}. Install it, "
                f"as by `apt-get install python3-{module}`, or call this by a python3 that has it")


def bytes_of(name):
    """A room with what a text holds, without its mark of byte order, and where that begins and
    ends; there is room in front and behind."""
    size = 0 if name == "-" else os.path.getsize(name)
    if size > LARGE:
        go_on_with("numpy")
    with open(0 if name == "-" else name, "rb", buffering=0, closefd=name != "-") as file:
        room, end = bytearray(SPARE + size + 1 + SPARE), SPARE
        while True:
            if end + SPARE >= len(room):
                room += bytes(len(room))
            with memoryview(room)[end:len(room) - SPARE] as rest:
                read = file.readinto(rest)
            if not read:
                break
            end += read
    if room[SPARE:SPARE + 2] in (b"\xff\xfe", b"\xfe\xff"):
        raise Wrong(f"{name}: a text in UTF-16: have it written in UTF-8")
    return room, SPARE + len(BOM) * room.startswith(BOM, SPARE), end


def text_of(data):
    return str(data, "utf-8", "surrogateescape")


def read_text(name, is_points):
    """A text: a cell a line, or for points a cell a word."""
    (room, low, high), fast = bytes_of(name), numpy_or_none()
    if fast and is_points:
        columns, rows, odd = fast.words(fast.Text(room, low, high))
        if odd is not None:
            raise Wrong(f"{name}:{odd[0]}: {odd[1]} numbers in place of {len(columns)}")
        return Source(name, columns, rows, True)
    if fast:
        cells, rows = fast.lines(fast.Text(room, low, high))
        return Source(name, [cells], rows, True)
    found, rows, width = [], [], None if is_points else 1
    for number, line in enumerate(text_of(room[low:high]).split("\n"), 1):
        words = line.replace(",", " ").split() if is_points else [line.strip()]
        if not words or not words[0] or words[0].startswith("#"):
            continue
        width = width or len(words)
        if len(words) != width:
            raise Wrong(f"{name}:{number}: {len(words)} numbers in place of {width}")
        found.append(words)
        rows.append(number)
    return Source(name, [list(it) for it in zip(*found)] or [[]] * (width or 2), rows, True)


def places_of(columns, head, name):
    """Which columns are meant, counted from 0, and whether the first line has names."""
    head = [cell.strip() for cell in head]
    for column in columns:
        if not column.isdigit() and column not in head:
            raise Wrong(f"{name}:1: no column `{column}`; there are {', '.join(head)}")
    places = [int(it) - 1 if it.isdigit() else head.index(it) for it in columns]
    return places, not all(it.isdigit() for it in columns)


def read_csv(name, columns, separator):
    (room, low, high), fast = bytes_of(name), numpy_or_none()
    has = lambda byte: room.find(byte, low, high) >= 0
    head = io.StringIO(text_of(room[low:min(high, low + LARGE)]), newline="")
    first = next(csv.reader(head, delimiter=separator), [])
    places, has_names = places_of(columns, first, name)
    # Lines may end with a carriage return alone.
    if fast and not has(b'"') and (has(b"\n") or not has(b"\r")):
        cells, rows, short = fast.fields(fast.Text(room, low, high), separator, places)
        if has_names:
            cells = [it.take(slice(1, None)) for it in cells]
            rows, short = rows[1:], short[short > 0] - 1
        if len(short):
            raise Wrong(f"{name}:{rows[short[0]]}: no column {max(places) + 1}")
        return Source(name, cells, rows, True)
    found, rows, number = [], [], 1
    lines = csv.reader(io.StringIO(text_of(room[low:high]), newline=""), delimiter=separator)
    for cells in lines:
        begun, number = number, lines.line_num + 1
        if not cells or (has_names and begun == 1):
            continue
        if len(cells) <= max(places):
            raise Wrong(f"{name}:{begun}: no column {max(places) + 1}")
        found.append([cells[place].strip() for place in places])
        rows.append(begun)
    made = [list(it) for it in zip(*found)] or [[] for _ in places]
    return Source(name, [fast.cells_of(it) for it in made] if fast else made, rows, True)


def read_npy(name, is_points):
    need("numpy", f"{name}: an array")
    numpy = numpy_or_none().numpy
    try:
        values = numpy.load(name, allow_pickle=False)
    except ValueError as wrong:
        raise Wrong(f"{name}: no array that numpy saved: {wrong}") from None
    if values.ndim != (2 if is_points else 1):
        raise Wrong(f"{name}: an array of the shape {values.shape}; points want a row a point, and "
                    "keys a list")
    columns = list(values.T) if is_points else [values]
    return Source(name, columns, range(len(values)), False)


def read_parquet(name, columns):
    need("pandas", f"{name}: a table")
    import pandas
    try:
        # A whole number beside a hole stays one.
        nullable = ({"use_nullable_dtypes": True} if pandas.__version__ < "2"
                    else {"dtype_backend": "numpy_nullable"})
        table = pandas.read_parquet(name, **nullable)
    except ImportError:
        raise Wrong(f"{name}: pandas reads Parquet where pyarrow or fastparquet is installed, too: "
                    "else have it written as CSV") from None
    for column in columns:
        if column not in table:
            raise Wrong(f"{name}: no column `{column}`; there are {', '.join(map(str, table))}")
    return Source(name, [array_of(table[it]) for it in columns], range(len(table)), False)


def array_of(series):
    """An array of a table's column; one with holes is of objects, and None where one is."""
    holes = series.isna()
    if hasattr(series.dtype, "tz"):
        series = series.dt.tz_convert("UTC").dt.tz_localize(None)
    if holes.any() and series.dtype.kind != "M":
        return series.astype(object).where(~holes, None).to_numpy()
    return series.to_numpy(dtype=getattr(series.dtype, "numpy_dtype", None))


def texts_of(values):
    """Cells of an array whose values are judged one by one; an empty one for what isn't there."""
    made = []
    for value in values.tolist() if values.dtype.kind in "US" else values:
        if value is None or value != value:
            made.append("")
        elif isinstance(value, bytes):
            made.append(text_of(value))
        elif hasattr(value, "isoformat"):
            made.append(value.isoformat())
        else:
            made.append(str(value))
    return made


def mapped_array(of, values):
    """An array as cells, or its keys and which of them are keys, the others being cells."""
    fast = numpy_or_none()
    numpy, kind = fast.numpy, values.dtype.kind
    if kind in "ui" and isinstance(of, key_maps.Decimals):
        keys, good = fast.of_integers(of, values)
    elif kind == "f" and values.dtype.itemsize <= 8 and isinstance(of, key_maps.Floats):
        keys, good = fast.of_doubles(values.astype(numpy.float64)), ~numpy.isnan(values)
    elif values.dtype == numpy.float64 and isinstance(of, key_maps.Decimals) and of.asked:
        keys, good = fast.of_scaled_doubles(of, values)
    elif kind == "M":
        values = numpy.datetime_as_string(values)
        values = numpy.where(values == "NaT", "", values)
        return fast.of_cells(of, fast.cells_of(values.tolist())) + (texts_of(values),)
    elif kind in "iufUSO":
        cells = texts_of(values)
        return fast.of_cells(of, fast.cells_of(cells)) + (cells,)
    else:
        raise Wrong(f"an array of {values.dtype}, and not of numbers, dates or texts")
    rest = numpy.flatnonzero(~good)
    return keys, good, dict(zip(rest.tolist(), texts_of(values[rest])))


def mapped(of, column):
    """The keys of a column, which cells are empty, and what is wrong with others."""
    if isinstance(column, list):
        keys, rest = array.array("Q", bytes(8 * len(column))), range(len(column))
        cell, zoned = column.__getitem__, bytearray(len(column))
    else:
        fast = numpy_or_none()
        if isinstance(column, fast.Cells):
            keys, good = fast.of_cells(of, column)
            cell = column.cell
        else:
            keys, good, cells = mapped_array(of, column)
            cell = cells.__getitem__
        rest = fast.numpy.flatnonzero(~good).tolist()
        zoned = getattr(of, "zoned", None)
    empty, wrong = [], []
    for index in rest:
        text = cell(index)
        if key_maps.is_empty(of, text):
            empty.append((index, key_maps.told_empty(text)))
            continue
        try:
            keys[index] = of.key(text)
        except Refused as why:
            wrong.append((index, why))
        if isinstance(of, key_maps.Times):
            zoned[index] = of.has_zone
    return keys, empty, wrong, zoned


def zones_apart(of, zoned, left_out):
    """Where dates with a zone stand beside some without: those that aren't as the first one."""
    if not isinstance(of, key_maps.Times) or bytes(zoned).count(1) in (0, len(zoned)):
        return []
    kept = [index for index in range(len(zoned)) if index not in left_out]
    says = ("a date without a zone, where the first one has one",
            "a date with a zone, where the first one has none")
    return [(index, says[bool(zoned[index])]) for index in kept if zoned[index] != zoned[kept[0]]]


def made_of(source, of, skips):
    """The keys of each column, and the rows that they come from; prints what is wrong."""
    empty, wrong, columns, whys = {}, {}, [], []
    for column in source.columns:
        keys, holes, refused, zoned = mapped(of, column)
        empty.update(holes)
        wrong.update(refused)
        whys += refused
        columns.append(keys)
        if not refused:
            wrong.update(zones_apart(of, zoned, {it for it, _ in holes}))
    if not skips:
        wrong = {**empty, **wrong}
    else:
        wrong = {index: why for index, why in wrong.items() if index not in empty}
    for index in sorted(wrong)[:TOLD]:
        print(f"{source.place(index)}: {wrong[index]}", file=sys.stderr)
    if wrong:
        more = f", of which {TOLD} are shown" if len(wrong) > TOLD else ""
        helps = ""
        if len(wrong) > 1 and all(isinstance(why, Refused) for why in wrong.values()):
            helps = takes_all(source, of, [why for index, why in whys if index in wrong], empty)
        rows = "row" if len(wrong) == 1 else "rows"
        raise Wrong(f"{len(wrong)} wrong {rows} in all{more}; nothing was written{helps}")
    rows = source.rows
    if empty:
        columns = [without(it, empty) for it in columns]
        rows = without(rows, empty)
    return columns, rows, len(empty)


def takes_all(source, of, whys, left_out):
    """What is said of the options with which no row is wrong, if there are such."""
    if any(why.number is None for why in whys):
        return ""
    scale = max((why.scale for why in whys if why.scale), default=of.asked)
    said = [f"--scale {scale}"] if scale != of.asked else []
    # Each number below the offset that was given is among those refused.
    offset = math.ceil(-min(why.number for why in whys) * (scale or 1))
    if offset <= of.offset:
        tried = [(said, of.offset)]
    else:
        tried = [([*said, f"--offset {offset}"], offset)]
        if of.offset == 0:
            tried.insert(0, ([*said, "--signed"], of.below // 2))
    good = []
    for words, offset in tried:
        other = key_maps.Decimals(of.below, scale, offset)
        refused = (index for column in source.columns for index, _ in mapped(other, column)[2])
        if words and all(index in left_out for index in refused):
            good.append(" ".join(words))
    return f"; {' or '.join(good)} takes them all" if good else ""


def without(values, left_out):
    """An array or a list without these places."""
    fast = numpy_or_none()
    if fast:
        return fast.numpy.delete(fast.numpy.asarray(values), list(left_out))
    kept = [value for index, value in enumerate(values) if index not in left_out]
    return array.array("Q", kept) if isinstance(values, array.array) else kept


def codes(columns):
    """The Morton code of each point: bit b of coordinate c is bit b * d + c of it."""
    fast, width = numpy_or_none(), len(columns)
    bits = COORDINATES[width].bit_length() - 1
    if not fast:
        return [sum((column[index] >> bit & 1) << bit * width + place
                    for place, column in enumerate(columns) for bit in range(bits))
                for index in range(len(columns[0]))]
    numpy = fast.numpy
    made = numpy.zeros(len(columns[0]), numpy.uint64)
    for place, column in enumerate(columns):
        column = numpy.asarray(column, numpy.uint64)
        for bit in range(bits):
            is_set = column >> numpy.uint64(bit) & numpy.uint64(1)
            made |= is_set << numpy.uint64(bit * width + place)
    return made


def order_of(keys):
    """The places of keys by rising key, equal ones as they stand."""
    fast = numpy_or_none()
    if fast:
        return fast.numpy.argsort(fast.numpy.asarray(keys), kind="stable")
    return sorted(range(len(keys)), key=keys.__getitem__)


def write_rows(name, keys, rows, order):
    fast = numpy_or_none()
    if fast:
        keys, rows = (fast.numpy.asarray(it)[order].tolist() for it in (keys, rows))
    else:
        keys, rows = [keys[it] for it in order], [rows[it] for it in order]
    with open(name, "w", encoding="ascii") as file:
        file.writelines(f"{key} {row}\n" for key, row in zip(keys, rows))


def write_numbers(name, columns, width):
    """The count, and then the numbers of each row, in so many bytes."""
    fast, count = numpy_or_none(), len(columns[0])
    if count > MOST:
        raise Wrong(f"{count} of them, where fewer than 2^32 are taken")
    with open(name, "wb") as file:
        file.write(count.to_bytes(8, "little"))
        if fast:
            whole = columns[0] if len(columns) == 1 else fast.numpy.stack(columns, axis=1)
            whole.astype(f"<u{width}", copy=False).tofile(file)
            return
        numbers = array.array({4: "I", 8: "Q"}[width], bytes(width * count * len(columns)))
        for place, column in enumerate(columns):
            numbers[place::len(columns)] = array.array(numbers.typecode, column)
        if sys.byteorder == "big":
            numbers.byteswap()
        numbers.tofile(file)


def write(given, columns, rows):
    width = 4 if given.points or given.narrow else 8
    if given.points:
        if given.rows:
            made = codes(columns)
            write_rows(given.rows, made, rows, order_of(made))
        write_numbers(given.file, columns, width)
        return
    order = order_of(columns[0]) if given.rows or not numpy_or_none() else None
    if given.rows:
        write_rows(given.rows, columns[0], rows, order)
    keys = sorted(columns[0]) if order is not None and not numpy_or_none() else (
        columns[0][order] if order is not None else numpy_or_none().ascending(columns[0]))
    write_numbers(given.file, [keys], width)


def map_of(given, below):
    if given.float:
        return key_maps.Floats()
    if given.time or given.nanoseconds:
        return key_maps.Times(given.nanoseconds)
    if given.prefix:
        return key_maps.Prefixes()
    return key_maps.Decimals(below, given.scale, below // 2 if given.signed else given.offset or 0)


def translate(given):
    """The keys of values, or the values of keys: those given, or a line of standard input each."""
    of = map_of(given, 1 << (32 if given.narrow else 64))
    words = given.key if given.key is not None else given.back
    for word in words or (line.strip() for line in sys.stdin):
        if given.key is not None:
            print(of.key(word.strip()))
        elif not (word.isascii() and word.isdigit() and int(word) < of.below):
            raise Refused(f"{key_maps.shown(word)} is no key")
        else:
            print(of.back(int(word)))


def words():
    asked = argparse.ArgumentParser(
        description=__doc__, usage=argparse.SUPPRESS, allow_abbrev=False,
        formatter_class=argparse.RawDescriptionHelpFormatter, add_help=False)

    def add(*names, **how):
        # The text above has all of them.
        asked.add_argument(*names, help=argparse.SUPPRESS, **how)

    add("-h", "--help", action="help")
    for name in ("numbers", "file"):
        add(name, nargs="?")
    add("--column", action="append", default=[])
    for option in ("--separator", "--rows"):
        add(option)
    for option in ("--scale", "--offset"):
        add(option, type=int)
    for flag in ("narrow", "points", "skip-empty",
                 "signed", "float", "time", "nanoseconds", "prefix"):
        add(f"--{flag}", action="store_true")
    # Behind --key and --back all words are values, also those with a hyphen in front.
    said = sys.argv[1:]
    cut = next((at for at, word in enumerate(said) if word in ("--key", "--back")), len(said))
    given = asked.parse_intermixed_args(said[:cut])
    given.key, given.back = (said[cut + 1:] if said[cut:cut + 1] == [it] else None
                             for it in ("--key", "--back"))
    refuse_words(asked, given)
    return given


def refuse_words(asked, given):
    kinds = [given.float, given.time or given.nanoseconds, given.prefix,
             given.signed or given.scale is not None or given.offset is not None]
    if sum(kinds) > 1 or (given.signed and given.offset is not None):
        asked.error("one map is taken: --float, --time, --prefix, or --scale with --signed or "
                    "--offset")
    if any(kinds[:3]) and (given.narrow or given.points):
        asked.error("--float, --time and --prefix make keys of 8 bytes: no --narrow, no --points")
    if given.scale is not None and not 0 < given.scale < 1 << 64:
        asked.error("--scale wants a whole number from 1 to 2^64 - 1")
    if given.points and given.narrow:
        asked.error("--narrow is of keys")
    if given.key is not None or given.back is not None:
        if given.numbers or given.points:
            asked.error("--key and --back take values or keys alone, which come last")
        return
    if not given.file:
        asked.error("NUMBERS and FILE are wanted")
    ending = os.path.splitext(given.numbers)[1].lower()
    if ending == ".npz":
        asked.error(f"{given.numbers} is an archive of arrays (.npz): save one of them by "
                    "numpy.save")
    given.kind = "npy" if ending == ".npy" else "parquet" if ending == ".parquet" else (
        "csv" if ending in SEPARATORS or given.column else "text")
    given.separator = given.separator or SEPARATORS.get(ending, ",")
    if len(given.separator.encode()) != 1:
        asked.error("--separator wants one character")
    if given.column and given.kind == "npy" or "0" in given.column:
        asked.error("--column is for a CSV file or a table, and counts from 1")
    wanted = COORDINATES if given.points else (1,)
    if given.kind in ("csv", "parquet") and len(given.column) not in wanted:
        asked.error("a CSV file and a table want --column for each number")


def read(given):
    if given.kind == "csv":
        return read_csv(given.numbers, given.column, given.separator)
    if given.kind == "npy":
        return read_npy(given.numbers, given.points)
    if given.kind == "parquet":
        return read_parquet(given.numbers, given.column)
    return read_text(given.numbers, given.points)


def make(given):
    source = read(given)
    width = len(source.columns)
    if given.points and width not in COORDINATES:
        raise Wrong(f"{given.numbers}: a point has 2 to 4 numbers, and not {width}")
    below = COORDINATES[width] if given.points else 1 << (32 if given.narrow else 64)
    columns, rows, skipped = made_of(source, map_of(given, below), given.skip_empty)
    write(given, columns, rows)
    count, what = len(columns[0]), "point" if given.points else "key"
    also = f", {skipped} empty left out" if skipped else ""
    print(f"{count} {what}{'' if count == 1 else 's'} written to {given.file}{also}")


def main():
    given = words()
    try:
        translate(given) if given.key is not None or given.back is not None else make(given)
    except (OSError, csv.Error, Wrong, Refused) as wrong:
        print(f"keys.py: {wrong}", file=sys.stderr)
        return 1
    return 0


if __name__ == "__main__":
    sys.exit(main())
