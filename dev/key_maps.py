"""What `keys.py` makes keys of, and back: each map keeps the order of what it takes.

A map's `key` gives the key of one cell of a text, exactly, or raises `Refused` with the option that
would help; `back` gives the value of a key, as a text. `key_columns.py` makes the same keys of
whole columns.
"""
import datetime
import decimal
import fractions
import math
import re
import struct

NUMBER = re.compile(r"([+-]?)(?:([0-9]+)(?:\.([0-9]*))?|\.([0-9]+))(?:[eE]([+-]?[0-9]{1,4}))?")
TIME = re.compile(r"([0-9]{4})-([0-9]{2})-([0-9]{2})"
                  r"(?:[T ]([0-9]{2}):([0-9]{2})(?::([0-9]{2})(?:[.,]([0-9]+))?)?"
                  r" ?(Z|[+-][0-9]{2}(?::?[0-9]{2})?)?)?", re.I)
# Words for what isn't there. A text may be such a word, so --prefix doesn't take them so.
EMPTY = re.compile(r"|[+-]?nan|n/?a|nat|null|none", re.I)
# Longer words are refused as they stand.
LONGEST = 400
DAY = 86400
# Days from the first day of the year 1 to that of 1970.
TO_1970 = datetime.date(1970, 1, 1).toordinal() - 1


class Refused(Exception):
    """Why a cell has no key, the scale with which it has one, if there is one, and its number, if
    a scale or an offset may help."""

    def __init__(self, text, scale=None, number=None):
        super().__init__(text)
        self.scale, self.number = scale, number


def is_time(cell):
    return TIME.fullmatch(cell) is not None


def is_empty(of, cell):
    return not cell if isinstance(of, Prefixes) else EMPTY.fullmatch(cell) is not None


def told_empty(cell):
    helps = "--skip-empty leaves its row out"
    return f"{shown(cell)} is no number: {helps}" if cell else f"an empty cell: {helps}"


def shown(cell):
    return f"`{cell if len(cell) <= 40 else cell[:40] + '..'}`"


class Decimals:
    """The number, times the scale, plus the offset, where that is whole."""

    def __init__(self, below, scale=None, offset=0):
        self.below, self.asked, self.offset = below, scale, offset
        self.scale = scale or 1

    def key(self, cell):
        found = NUMBER.fullmatch(cell) if len(cell) <= LONGEST else None
        if not found:
            raise Refused(self.other(cell))
        sign, whole, part, only, power = found.groups()
        part = only or part or ""
        places = len(part) - int(power or 0)
        number = int((whole or "") + part) * (-1 if sign == "-" else 1)
        is_whole_word = "." not in cell and power is None
        if not is_whole_word and self.asked is None:
            raise self.unscaled(f"{shown(cell)} is no whole number", number, places)
        if abs(places) > LONGEST:
            raise Refused(f"{shown(cell)} has too many places")
        value = number * self.scale * 10 ** max(-places, 0)
        value, rest = divmod(value, 10 ** max(places, 0))
        if rest:
            raise self.unscaled(f"{shown(cell)} times {self.scale} is no whole number", number,
                                places)
        if not 0 <= value + self.offset < self.below:
            raise Refused(self.outside(cell, value),
                          number=fractions.Fraction(value, self.scale))
        return value + self.offset

    def unscaled(self, text, number, places):
        """With the least scale that takes the number, if one does."""
        while number % 10 == 0 and places > 0:
            number, places = number // 10, places - 1
        if abs(number) >= self.below or places > 19:
            return Refused(f"{text}: --float takes doubles")
        scale = 10 ** max(places, 0)
        also = " --signed" if number < 0 and self.offset == 0 else ""
        return Refused(f"{text}: --scale {scale}{also} takes it", scale,
                       fractions.Fraction(number * 10 ** max(-places, 0), scale))

    def outside(self, cell, value):
        if value < 0 and self.offset == 0:
            half = self.below // 2
            helps = "--signed or " if -value <= half else ""
            helps = f": {helps}--offset {-value} takes it" if -value < self.below else ""
            return f"{shown(cell)} is below 0{helps}"
        low, high = -self.offset, self.below - 1 - self.offset
        of = f" times {self.scale}" if self.asked else ""
        return f"{shown(cell)}{of} is not from {low} to {high}"

    def other(self, cell):
        if len(cell) > LONGEST:
            return f"{shown(cell)} is too long for a number"
        if re.fullmatch(r"[+-]?inf(inity)?", cell, re.I):
            return f"{shown(cell)} is no number: --float takes it"
        if is_time(cell):
            return f"{shown(cell)} is no number: --time takes dates"
        return f"{shown(cell)} is no number: --prefix takes the first eight bytes of a text"

    def back(self, key):
        value = key - self.offset
        places = len(str(self.scale)) - 1
        if self.scale != 10 ** places:
            return str(fractions.Fraction(value, self.scale))
        if not places:
            return str(value)
        sign, digits = "-" * (value < 0), str(abs(value)).rjust(places + 1, "0")
        return f"{sign}{digits[:-places]}.{digits[-places:]}"


class Floats:
    """Doubles, by their bits: those of a negative one are turned over."""

    below = 1 << 64

    def key(self, cell):
        found = NUMBER.fullmatch(cell) if len(cell) <= LONGEST else None
        if not found and not re.fullmatch(r"[+-]?inf(inity)?", cell, re.I):
            if is_time(cell):
                raise Refused(f"{shown(cell)} is no number: --time takes dates")
            raise Refused(f"{shown(cell)} is no number")
        value = float(cell)
        if found and decimal.Decimal(cell) not in (
                {decimal.Decimal(repr(value)), decimal.Decimal("%.17g" % value)}
                if math.isfinite(value) else ()):
            raise Refused(f"{shown(cell)} would lose digits as a double: --scale keeps them")
        return self.of_double(value)

    @staticmethod
    def of_double(value):
        # 0 and -0 are one number.
        (bits,) = struct.unpack("<Q", struct.pack("<d", value + 0.0))
        return bits ^ ((1 << 64) - 1) if bits >> 63 else bits | 1 << 63

    def back(self, key):
        bits = key ^ 1 << 63 if key >> 63 else key ^ ((1 << 64) - 1)
        return repr(struct.unpack("<d", struct.pack("<Q", bits))[0])


class Times:
    """Microseconds from the first day of the year 1 on, or nanoseconds around 1970, in UTC where a
    zone is given."""

    below = 1 << 64

    def __init__(self, nanoseconds=False):
        self.is_fine = nanoseconds
        self.places = 9 if nanoseconds else 6
        # What is added to the count since 1970.
        self.offset = 1 << 63 if nanoseconds else TO_1970 * DAY * 10 ** 6
        # Whether the last cell had a zone.
        self.has_zone = False

    def key(self, cell):
        found = TIME.fullmatch(cell)
        if not found:
            helps = ": --scale takes decimals" if NUMBER.fullmatch(cell) else ""
            raise Refused(f"{shown(cell)} is no date as 2026-02-28 or 2026-02-28T23:59:59.5Z"
                          + helps)
        year, month, day, hour, minute, second = (int(it or 0) for it in found.groups()[:6])
        part, zone = (found[7] or "").rstrip("0"), found[8]
        try:
            datetime.datetime(year, month, day, hour, minute, second)
        except ValueError as wrong:
            raise Refused(f"{shown(cell)} is no date: {wrong}") from None
        if len(part) > self.places:
            helps = ": --nanoseconds keeps nine" if len(part) <= 9 and not self.is_fine else ""
            raise Refused(f"{shown(cell)} has more than {self.places} places{helps}")
        seconds = (datetime.date(year, month, day).toordinal() - 1 - TO_1970) * DAY
        seconds += hour * 3600 + minute * 60 + second
        self.has_zone = zone is not None
        if zone and zone not in "Zz":
            hours, minutes = int(zone[1:3]), int(zone[3:].lstrip(":") or 0)
            if hours > 23 or minutes > 59:
                raise Refused(f"{shown(cell)} is no date: there is no such zone")
            seconds -= (hours * 3600 + minutes * 60) * (-1 if zone[0] == "-" else 1)
        part = int(part.ljust(self.places, "0"))
        return self.counted(cell, seconds * 10 ** self.places + part)

    def counted(self, cell, since_1970):
        if not 0 <= since_1970 + self.offset < self.below:
            raise Refused(f"{shown(cell)} is " + ("not from 1677 to 2262: leave --nanoseconds away"
                                                  if self.is_fine else "before the year 1"))
        return since_1970 + self.offset

    def back(self, key):
        seconds, part = divmod(key - self.offset, 10 ** self.places)
        days, second = divmod(seconds, DAY)
        try:
            day = datetime.date.fromordinal(days + 1 + TO_1970)
        except (ValueError, OverflowError):
            raise Refused(f"{key} is the key of no date") from None
        time = datetime.time(second // 3600, second // 60 % 60, second % 60)
        tail = f".{part:0{self.places}}".rstrip("0") if part else ""
        return f"{day.isoformat()}T{time.isoformat()}{tail}"


class Prefixes:
    """The first eight bytes of a text, the first one highest; the order of texts is that of their
    bytes, and texts that agree in eight have one key."""

    below = 1 << 64

    def key(self, cell):
        return int.from_bytes(cell.encode("utf-8", "surrogateescape")[:8].ljust(8, b"\0"), "big")

    def back(self, key):
        return key.to_bytes(8, "big").rstrip(b"\0").decode("utf-8", "replace")
