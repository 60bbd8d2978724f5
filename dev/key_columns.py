"""Columns of a million cells, by numpy: what `keys.py` reads and maps at once.

Each function here gives what `key_maps.py` gives cell by cell, of the cells that it can take, and
says which those are: numbers of at most 20 digits, doubles of 15, dates without a zone or with Z.
`keys.py` gives the rest to the map itself. Whole numbers never pass through a double.
"""
import numpy

import key_maps

MOST = (1 << 64) - 1
# Of each month, from 1 on, how many days it has at most, and how many stand before it in a year
# that begins in March. There are no months 0 and 13.
DAYS = numpy.array([0, 31, 29, 31, 30, 31, 30, 31, 31, 30, 31, 30, 31, 0])
BEFORE = numpy.array([0, 306, 337, 0, 31, 61, 92, 122, 153, 184, 214, 245, 275, 0])
# Cells and bytes that are looked at together, so that they stay near the processor.
BLOCK, PIECE = 1 << 15, 1 << 18
DIGITS = 20
POWERS = numpy.array([10 ** it for it in range(DIGITS)], numpy.uint64)


# Bytes in front of a text and behind it, so that eight of its bytes can be taken together.
SPARE = 32
# Digits that are taken at once, at most.
LONGEST = 24
ZEROS = numpy.uint64(0x3030303030303030)
# By how many of the last bytes of eight are kept, the mask of these.
KEPT = numpy.array([0] + [MOST << 8 * (8 - it) & MOST for it in range(1, 9)], numpy.uint64)


def u64(number):
    return numpy.uint64(number)


class Text:
    """The bytes of a text from `low` to `high` of a room, one by one and each with the seven behind
    it. The last line has an end, too."""

    def __init__(self, room, low, high):
        if low < high and room[high - 1] != 10:
            room[high], high = 10, high + 1
        self.room, self.low, self.high = room, low, high
        self.bytes = numpy.frombuffer(room, numpy.uint8)
        self.words = numpy.ndarray(len(room) - 7, "<u8", room, strides=(1,))

    def eight(self, places):
        return self.words[places]

    def pieces(self):
        """Where whole lines begin and end, about so many bytes together."""
        low = self.low
        while low < self.high:
            high = min(low + PIECE, self.high)
            high = (self.room.rfind(b"\n", low, high) + 1 or self.room.find(b"\n", high) + 1)
            yield low, high
            low = high


def text_of(data):
    return Text(bytearray(SPARE) + data + bytes(SPARE), SPARE, SPARE + len(data))


class Cells:
    """Cells of a text: where each begins and ends in its bytes."""

    def __init__(self, text, starts, ends):
        self.text, self.starts, self.ends = text, starts, ends

    def __len__(self):
        return len(self.starts)

    def stripped(self):
        """Without blanks at both ends."""
        data, starts, ends = self.text.bytes, self.starts.copy(), self.ends.copy()
        blank = numpy.zeros(256, bool)
        blank[[9, 10, 11, 12, 13, 32]] = True
        for move, first in ((1, starts), (-1, ends)):
            # Where a blank may be: most cells have none.
            at = numpy.flatnonzero((data[first - (move < 0)] <= 32) & (starts < ends))
            while len(at):
                at = at[blank[data[first[at] - (move < 0)]]]
                first[at] += move
                at = at[starts[at] < ends[at]]
        return Cells(self.text, starts, ends)

    def cell(self, index):
        return self.text.bytes[self.starts[index]:self.ends[index]].tobytes().decode(
            "utf-8", "surrogateescape")

    def take(self, index):
        return Cells(self.text, self.starts[index], self.ends[index])

    def heads(self):
        """The first byte of each cell; of an empty one any."""
        return self.text.bytes[self.starts]

    def blocks(self):
        for low in range(0, len(self), BLOCK):
            part = slice(low, low + BLOCK)
            yield part, self.take(part)


def cells_of(texts):
    """Cells of texts that stand in a list."""
    parts = [it.encode("utf-8", "surrogateescape") for it in texts]
    ends = numpy.cumsum([len(it) for it in parts], dtype=numpy.int64)
    starts = numpy.concatenate([numpy.zeros(1, numpy.int64), ends[:-1]]) if len(parts) else ends
    return Cells(text_of(b"".join(parts)), starts + SPARE, ends + SPARE)


def starts_of(low, ends):
    """Where the lines begin that have these ends, the first one at `low`."""
    return numpy.concatenate([numpy.full(min(1, len(ends)), low, numpy.int64), ends[:-1] + 1])


def joined(parts, kinds):
    """Arrays of each kind of pieces, each as one."""
    return [numpy.concatenate(it) for it in zip(*parts)] or [numpy.zeros(0, it) for it in kinds]


def lines(text):
    """The lines of a text without blanks at both ends, but for empty ones and those that begin with
    #; and the number of each."""
    parts, count = [], 1
    for low, high in text.pieces():
        ends = numpy.flatnonzero(text.bytes[low:high] == 10) + low
        cells = Cells(text, starts_of(low, ends), ends).stripped()
        kept = numpy.flatnonzero((cells.starts < cells.ends) & (cells.heads() != ord("#")))
        parts.append((cells.starts[kept], cells.ends[kept], kept + count))
        count += len(ends)
    starts, ends, rows = joined(parts, [numpy.int64] * 3)
    return Cells(text, starts, ends), rows


def words(text):
    """Columns of the words of a text, which blanks and commas divide, without lines that begin with
    #; the number of each line; and of the first line that has another number of words than the
    first one its number and how many."""
    parts, before = [], 1
    for low, high in text.pieces():
        data = text.bytes[low:high]
        is_blank = (data - numpy.uint8(9) < 5) | (data == 32) | (data == 44)
        edges = numpy.flatnonzero(numpy.diff(is_blank, prepend=True, append=True)) + low
        ends = numpy.flatnonzero(data == 10) + low
        of_line = numpy.searchsorted(ends, edges[::2])
        numbers, first, counts = numpy.unique(of_line, return_index=True, return_counts=True)
        kept = text.bytes[edges[::2][first]] != ord("#")
        are_kept = numpy.repeat(kept, counts)
        parts.append((edges[::2][are_kept], edges[1::2][are_kept], numbers[kept] + before,
                      counts[kept]))
        before += len(ends)
    starts, ends, rows, counts = joined(parts, [numpy.int64] * 4)
    width = int(counts[0]) if len(counts) else 2
    odd = numpy.flatnonzero(counts != width)
    odd = (int(rows[odd[0]]), int(counts[odd[0]])) if len(odd) else None
    cells = Cells(text, starts, ends)
    return [cells.take(slice(it, None, width)) for it in range(width)], rows, odd


def fields(text, separator, columns):
    """The cells of some columns of a text without quotes, and the number of each line that they are
    of; and which of these lines are too short."""
    parts, count = [], 1
    for low, high in text.pieces():
        are_ends = text.bytes[low:high] == 10
        marks = numpy.flatnonzero((text.bytes[low:high] == ord(separator)) | are_ends) + low
        height = numpy.count_nonzero(are_ends)
        made = regular(text, marks, height, low, columns) or irregular(text, marks, low, columns)
        cells = [Cells(text, *it).stripped() for it in made[0]]
        parts.append((*(it for cell in cells for it in (cell.starts, cell.ends)),
                      made[1] + count, made[2]))
        count += height
    *made, rows, are_short = joined(parts, [numpy.int64] * (2 * len(columns) + 1) + [bool])
    cells = [Cells(text, *it) for it in zip(made[::2], made[1::2])]
    return cells, rows, numpy.flatnonzero(are_short)


def regular(text, marks, height, low, columns):
    """Where cells begin and end, the number of each line and whether it is too short, if all lines
    have as many marks as the first one, and that more than its end; else None."""
    width = int(numpy.searchsorted(marks, text.room.find(b"\n", low))) + 1
    ends = marks[width - 1::width]
    if not max(1, *columns) < width or len(marks) != width * height or len(ends) != height or (
            text.bytes[ends] != 10).any():
        return None
    cells = [(marks[it - 1::width] + 1 if it else starts_of(low, ends), marks[it::width])
             for it in columns]
    return cells, numpy.arange(height), numpy.zeros(height, bool)


def irregular(text, marks, low, columns):
    """The same of any lines, without those that are blank."""
    last = numpy.flatnonzero(text.bytes[marks] == 10)
    first, finishes = starts_of(0, last), marks[last]
    begins = starts_of(low, finishes)
    blank = (finishes == begins) | (finishes == begins + 1) & (text.bytes[begins] == 13)
    kept = numpy.flatnonzero(~blank)
    first, last, begins = first[kept], last[kept], begins[kept]
    cells = []
    for column in columns:
        ends = marks[numpy.minimum(first + column, last)]
        starts = marks[numpy.minimum(first + column - 1, last)] + 1 if column else begins
        cells.append((numpy.minimum(starts, ends), ends))
    return cells, kept, last - first < max(columns)


def number_of(words):
    """The number of eight digits, of which the first is in the lowest byte."""
    words = words & u64(0x0F0F0F0F0F0F0F0F)
    words = words * u64(10) + (words >> u64(8)) & u64(0x00FF00FF00FF00FF)
    words = words * u64(100) + (words >> u64(16)) & u64(0x0000FFFF0000FFFF)
    return words * u64(10000) + (words >> u64(32)) & u64(0xFFFFFFFF)


def are_digits(words):
    words = words ^ ZEROS
    return ((words | words + u64(0x0606060606060606)) & u64(0xF0F0F0F0F0F0F0F0)) == 0


def digits(text, starts, ends):
    """The number, modulo 2^64, of at most 24 digits, and whether there are no more and nothing
    else. No digits are 0."""
    length = ends - starts
    good = length <= LONGEST
    value = numpy.zeros(len(length), numpy.uint64)
    for part in range((min(int(length.max(initial=0)), LONGEST) + 7) // 8):
        kept = KEPT[numpy.clip(length - 8 * part, 0, 8)]
        word = text.eight(numpy.maximum(ends - 8 * (part + 1), 0)) & kept | ZEROS & ~kept
        good &= are_digits(word)
        value += number_of(word) * u64(10 ** (8 * part))
    return value, good


def digits_of_lines(text, starts, ends):
    """The same where nothing but an end of a line stands between two cells, and all are digits;
    else None. A number that may be too great is left out."""
    part = text.bytes[starts[0]:ends[-1]]
    if numpy.count_nonzero(part - numpy.uint8(48) > 9) != len(ends) - 1 or (
            starts[1:] != ends[:-1] + 1).any() or (text.bytes[ends[:-1]] != 10).any():
        return None
    value = numpy.fromstring(part.tobytes(), numpy.uint64, sep="\n")
    return (value, value < u64(MOST)) if len(value) == len(ends) else None


def scanned(cells, may_have_point):
    """Digits without their point and sign, as one number; how many stand behind the point; whether
    a minus stands in front; how many digits there are; and whether that is all and below 2^64."""
    head = cells.heads()
    filled = cells.starts < cells.ends
    negative = filled & (head == 45)
    starts = cells.starts + (negative | filled & (head == 43))
    if may_have_point and b"." in cells.text.room[starts[0]:cells.ends[0]]:
        value, places, count, good = with_point(cells.text, starts, cells.ends)
    else:
        value, good = (digits_of_lines(cells.text, starts, cells.ends)
                       or digits(cells.text, starts, cells.ends))
        count, places = cells.ends - starts, numpy.zeros(len(cells), numpy.int64)
        rest = numpy.flatnonzero(~good)
        if may_have_point and len(rest):
            value[rest], places[rest], count[rest], good[rest] = with_point(
                cells.text, starts[rest], cells.ends[rest])
    good &= (count > 0) & (count <= DIGITS)
    full = numpy.flatnonzero(good & (count == DIGITS))
    first = cells.text.bytes[starts[full]]
    # Of 20 digits the first is 1 at most, and the number hasn't come round.
    good[full] = (first == 48) | (first == 49) & (value[full] >= u64(10 ** (DIGITS - 1)))
    return value, places, negative, count, good


def with_point(text, starts, ends):
    """Digits as one number, how many stand behind the first point, how many there are, and whether
    they are all."""
    points = numpy.flatnonzero(text.bytes[starts[0]:ends[-1]] == 46) + starts[0]
    # The first point of each cell, or its end.
    point = numpy.append(points, ends[-1])[numpy.searchsorted(points, starts)]
    point = numpy.minimum(point, ends)
    value, good = digits(text, starts, point)
    places = numpy.maximum(ends - point - 1, 0)
    part, right = digits(text, point + (point < ends), ends)
    count = point - starts + places
    # More digits than 19 are left to the map, where there is a point.
    right &= (places == 0) | (count < DIGITS)
    value = value * POWERS[numpy.clip(places, 0, DIGITS - 1)] + part
    return value, places, count, good & right


def within(numbers, low, high):
    low, high = max(low, 0), min(high, MOST)
    if low > high:
        return numpy.zeros(len(numbers), bool)
    return (numbers >= u64(low)) & (numbers <= u64(high))


def shifted(of, magnitudes, negative):
    """Keys of whole numbers that are scaled already, and which of them are in range."""
    offset = u64(of.offset % (MOST + 1))
    keys = numpy.where(negative, offset - magnitudes, offset + magnitudes)
    good = numpy.where(negative, within(magnitudes, of.offset - of.below + 1, of.offset),
                       within(magnitudes, -of.offset, of.below - 1 - of.offset))
    return keys, good


def scaled(of, magnitudes, places):
    """Magnitudes times the scale, by 10 to the places, and which of them are whole."""
    good = within(magnitudes, 0, MOST // of.scale)
    product = magnitudes * u64(of.scale)
    if not places.any():
        return product, good
    power = POWERS[numpy.clip(places, 0, DIGITS - 1)]
    whole = product // power
    return whole, good & (places < DIGITS) & (whole * power == product)


def decimals(of, cells):
    value, places, negative, _, good = scanned(cells, of.asked is not None)
    whole, exact = scaled(of, value, places)
    keys, inside = shifted(of, whole, negative)
    return keys, good & exact & inside


def floats(_, cells):
    """A double of at most 15 digits is their whole number by a power of ten, rounded once."""
    value, places, negative, count, good = scanned(cells, True)
    good &= count <= 15
    power = POWERS[numpy.clip(places, 0, DIGITS - 1)].astype(numpy.float64)
    doubles = numpy.where(good, value, u64(0)).astype(numpy.float64) / power
    return of_doubles(numpy.where(negative, -doubles, doubles)), good


def of_doubles(doubles):
    bits = (doubles + 0.0).view(numpy.uint64)
    top = u64(1 << 63)
    return numpy.where(bits & top, ~bits, bits | top)


def days_since_1970(year, month, day):
    """Of the calendar that is in use, in years that begin in March."""
    year = year - (month <= 2)
    days = 365 * year + (year >> 2) - year // 100 + year // 400
    return days + BEFORE.take(month, mode="clip") + day - 719469


def are_days(year, month, day):
    """Whether a month has such a day, and a year such a month."""
    good = (day >= 1) & (day <= DAYS.take(month, mode="clip"))
    last = numpy.flatnonzero(good & (month == 2) & (day == 29))
    year = year[last]
    good[last] = (year % 4 == 0) & ((year % 100 != 0) | (year % 400 == 0))
    return good


def two(words, place):
    """The number of two digits from a byte of each word on."""
    ten, one = words >> u64(8 * place) & u64(15), words >> u64(8 * place + 8) & u64(15)
    return (ten * u64(10) + one).view(numpy.int64)


def fits(words, form):
    """Whether the eight bytes are as those of the form, in which 0 stands for a digit and ? for any
    byte."""
    wanted = int.from_bytes(form.encode(), "little")
    marks = sum(255 << 8 * it for it, byte in enumerate(form) if byte not in "0?")
    numbers = sum(255 << 8 * it for it, byte in enumerate(form) if byte == "0")
    numbers = words & u64(numbers) | ZEROS & u64(MOST ^ numbers)
    return ((words ^ u64(wanted)) & u64(marks) == 0) & are_digits(numbers)


def times(of, cells):
    """`YYYY-MM-DD`, or with `Thh:mm:ss` behind it, a fraction or none, and Z or none."""
    length = cells.ends - cells.starts
    head, middle = (cells.text.eight(cells.starts + it) for it in (0, 8))
    year, month, day = two(head, 0) * 100 + two(head, 2), two(head, 5), two(middle, 0)
    good = fits(head, "0000-00-") & (year >= 1) & are_days(year, month, day) & (length >= 10)
    seconds = days_since_1970(year, month, day) * key_maps.DAY
    is_long = length > 10
    if not is_long.any():
        return *counted(of, seconds, 0, good & fits(middle, "00??????")), is_long
    clock, part, zoned, right = clock_block(of, cells, middle, length)
    good &= numpy.where(is_long, right, fits(middle, "00??????"))
    seconds += numpy.where(is_long, clock, 0)
    return *counted(of, seconds, numpy.where(is_long, part, 0), good), zoned & is_long


def counted(of, seconds, part, good):
    if of.is_fine:
        # Where nanoseconds don't come round.
        good = good & (seconds > -9223372036) & (seconds < 9223372036)
    count = numpy.where(good, seconds, 0) * 10 ** of.places + part
    return count.astype(numpy.uint64) + u64(of.offset), good


def clock_block(of, cells, middle, length):
    """The time of day behind the date."""
    tail = cells.text.eight(cells.starts + 16)
    hour, minute, second = two(middle, 3), two(middle, 6), two(tail, 1)
    between = middle >> u64(16) & u64(255)
    good = fits(middle, "00?00:00") & fits(tail, ":00?????") & ((between == 84) | (between == 32))
    good &= (hour < 24) & (minute < 60) & (second < 60) & (length >= 19)
    zoned = cells.text.eight(cells.ends - 1) & u64(255) == 90
    places = length - zoned - 20
    has_part = (tail >> u64(24) & u64(255) == 46) & (places >= 1) & (places <= of.places)
    good &= (places == -1) | has_part
    places = numpy.clip(numpy.where(good, places, 0), 0, of.places)
    part, right = digits(cells.text, cells.starts + 20, cells.starts + 20 + places)
    part = part.astype(numpy.int64) * POWERS.astype(numpy.int64)[of.places - places]
    return hour * 3600 + minute * 60 + second, part, zoned, good & right


def prefixes(_, cells):
    """The first eight bytes, the first one highest."""
    length = numpy.clip(cells.ends - cells.starts, 0, 8)
    words = cells.text.eight(cells.starts).byteswap()
    return words & KEPT[length], length > 0


def of_cells(of, cells):
    """The keys of cells, and which of them are keys; the others are the map's to judge."""
    by = {key_maps.Decimals: decimals, key_maps.Floats: floats, key_maps.Times: times,
          key_maps.Prefixes: prefixes}
    made = [numpy.zeros(len(cells), it) for it in (numpy.uint64, bool, bool)]
    for part, block in cells.blocks():
        for whole, of_block in zip(made, by[type(of)](of, block)):
            whole[part] = of_block
    if isinstance(of, key_maps.Times):
        of.zoned = made[2]
    return made[0], made[1]


def of_integers(of, values):
    """The same of an array of whole numbers."""
    negative = values < 0
    magnitudes = values.astype(numpy.uint64)
    magnitudes = numpy.where(negative, ~magnitudes + u64(1), magnitudes)
    whole, good = scaled(of, magnitudes, numpy.zeros(len(values), numpy.int8))
    keys, inside = shifted(of, whole, negative)
    return keys, good & inside


def of_scaled_doubles(of, values):
    """The same of doubles that are scaled: each is the shortest decimal that reads as it. One of at
    most 15 digits is that decimal, since no two of these read as one double."""
    with numpy.errstate(all="ignore"):
        whole = numpy.rint(values * float(of.scale))
        good = numpy.isfinite(values) & (numpy.abs(whole) < 1e15) & (whole / of.scale == values)
    good &= of.scale < 1 << 53 and of.scale == 10 ** (len(str(of.scale)) - 1)
    magnitudes = numpy.where(good, numpy.abs(whole), 0).astype(numpy.uint64)
    keys, inside = shifted(of, magnitudes, whole < 0)
    return keys, good & inside


def ascending(keys):
    """The keys by size: counted, where they lie close together."""
    low, high = int(keys.min(initial=MOST)), int(keys.max(initial=0))
    if not len(keys) or high - low >= 2 * len(keys):
        return numpy.sort(keys)
    counts = numpy.bincount((keys - u64(low)).view(numpy.int64))
    return numpy.repeat(numpy.arange(len(counts), dtype=numpy.uint64) + u64(low), counts)
