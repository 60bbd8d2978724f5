"""Tests of `keys.py`: python3 -m unittest dev/test_keys.py

Each row was worked out by hand. All run by an interpreter without numpy, and again by one with it
where there is one; behind them random cells are given to both, which have to agree.
"""
import pathlib
import random
import shutil
import struct
import subprocess
import sys
import tempfile
import unittest

KEYS = pathlib.Path(__file__).resolve().parent / "keys.py"
HALF, MOST = 1 << 63, (1 << 64) - 1
# 1970-01-01 in microseconds from 0001-01-01 on: 719,162 days.
EPOCH = 719162 * 86400 * 10 ** 6


def has(python, module):
    return python and subprocess.run([python, "-c", f"import {module}"],
                                     stderr=subprocess.DEVNULL).returncode == 0


FAST = next((it for it in (sys.executable, "/usr/bin/python3", shutil.which("python3"))
             if has(it, "numpy")), None)
# Without the folders where packages are installed.
PLAIN = [sys.executable, "-S"]


class Plain(unittest.TestCase):
    python = PLAIN

    def setUp(self):
        room = tempfile.TemporaryDirectory()
        self.addCleanup(room.cleanup)
        self.room = pathlib.Path(room.name)

    def call(self, *words, given=None):
        return subprocess.run([*self.python, KEYS, *words], cwd=self.room, input=given,
                              stdout=subprocess.PIPE, stderr=subprocess.PIPE,
                              encoding="utf-8", errors="surrogateescape")

    def put(self, name, text):
        (self.room / name).write_bytes(text if isinstance(text, bytes) else text.encode())
        return name

    def numbers(self, width=8):
        data = (self.room / "made").read_bytes()
        (count,) = struct.unpack("<Q", data[:8])
        found = [int.from_bytes(data[at:at + width], "little") for at in range(8, len(data), width)]
        return count, found

    def made(self, name, text, *words, width=8):
        ran = self.call(self.put(name, text), "made", *words)
        self.assertEqual((ran.returncode, ran.stderr), (0, ""), (text, words))
        count, found = self.numbers(width)
        self.assertEqual(count, len(found) if "--points" not in words else count)
        return found

    def refused(self, name, text, *words):
        """What is said of wrong rows; nothing is written."""
        (self.room / "made").unlink(missing_ok=True)
        ran = self.call(self.put(name, text), "made", *words)
        self.assertEqual((ran.returncode, ran.stdout), (1, ""), (text, words))
        self.assertFalse((self.room / "made").exists())
        return ran.stderr

    def rows(self):
        return (self.room / "rows").read_text().splitlines()

    def test_texts(self):
        self.assertEqual(self.made("t", "19\n7\n42\n7\n"), [7, 7, 19, 42])
        self.assertEqual(self.made("t", "\ufeff19\r\n\r\n# seven\n 7\t\n"), [7, 19])
        self.assertEqual(self.made("t", ""), [])
        self.assertEqual(self.made("t", "0007\n+3"), [3, 7])
        self.assertEqual(self.made("t", "4294967295\n1\n", "--narrow", width=4), [1, 4294967295])
        self.assertEqual(self.call("-", "made", given="5\n3\n").stdout, "2 keys written to made\n")
        self.assertEqual(self.numbers(), (2, [3, 5]))

    def test_the_greatest_numbers(self):
        self.assertEqual(self.made("t", f"{MOST}\n9999999999999999999\n10000000000000000000\n"),
                         [9999999999999999999, 10000000000000000000, MOST])
        self.assertEqual(self.made("t", f"00{MOST}\n{MOST - 1}\n"), [MOST - 1, MOST])
        for number in (MOST + 1, 28446744073709551616, 99999999999999999999, 10 ** 30, 2 ** 128):
            said = self.refused("t", f"1\n{number}\n")
            self.assertIn(f"t:2: `{number}` is not from 0 to {MOST}", said)
        self.assertIn("is not from 0 to 4294967295", self.refused("t", f"{1 << 32}\n", "--narrow"))
        self.assertIn("too long for a number", self.refused("t", "1" * 5000 + "\n"))

    def test_csv(self):
        head = "\ufeffid;name\n".encode()
        self.assertEqual(self.made("a.csv", head + b"7;x\n3;\n", "--separator", ";", "--column", "id"),
                         [3, 7])
        self.assertEqual(self.made("a.tsv", "a\tb\n1\t9\n2\t8", "--column", "b"), [8, 9])
        self.assertEqual(self.made("a.csv", "1,9\r\n2,8\r\n", "--column", "2"), [8, 9])
        self.assertEqual(self.made("a.csv", "5,9\n\n2,8\n", "--column", "1"), [2, 5])
        self.assertEqual(self.made("other", "2,8\n", "--column", "2"), [8])
        self.assertEqual(self.made("a.csv", "a,b\r1,2\r3,4\r", "--column", "b"), [2, 4])
        self.assertEqual(self.made("a.csv", "a,b\n", "--column", "b"), [])
        self.assertIn("UTF-16", self.refused("a.csv", "a,b\n1,2\n".encode("utf-16"), "--column", "b"))
        self.assertIn("no column `price`; there are id, name",
                      self.refused("a.csv", "id,name\n1,x\n", "--column", "price"))
        self.assertIn("a.csv:3: no column 2", self.refused("a.csv", "a,b\n1,2\n3\n", "--column", "b"))

    def test_csv_with_quotes_tells_where_a_record_begins(self):
        text = 'id,"a, b"\n9,"x\ny"\n"7",z\n'
        self.assertEqual(self.made("a.csv", text, "--column", "id", "--rows", "rows"), [7, 9])
        self.assertEqual(self.rows(), ["7 4", "9 2"])

    def test_empty_cells(self):
        text = "id,x\n7,\n,\n3,\n7,\nNaN,\n"
        said = self.refused("a.csv", text, "--column", "id")
        self.assertIn("a.csv:3: an empty cell: --skip-empty leaves its row out", said)
        self.assertIn("a.csv:6: `NaN` is no number: --skip-empty leaves its row out", said)
        self.assertIn("2 wrong rows in all", said)
        found = self.made("a.csv", text, "--column", "id", "--skip-empty", "--rows", "rows")
        self.assertEqual(found, [3, 7, 7])
        self.assertEqual(self.rows(), ["3 4", "7 2", "7 5"])
        # A country may be told by NA.
        self.assertEqual(self.made("a.csv", "a,b\nNA,1\n,2\n", "--column", "a", "--prefix",
                                   "--skip-empty"), [0x4E41 << 48])

    def test_below_zero(self):
        self.assertIn("t:1: `-5` is below 0: --signed or --offset 5 takes it",
                      self.refused("t", "-5\n7\n"))
        self.assertEqual(self.made("t", "-5\n7\n0\n-0\n", "--signed"),
                         [HALF - 5, HALF, HALF, HALF + 7])
        self.assertEqual(self.made("t", f"{-HALF}\n{HALF - 1}\n", "--signed"), [0, MOST])
        self.assertIn("is not from", self.refused("t", f"{HALF}\n", "--signed"))
        self.assertIn("is not from", self.refused("t", f"{-HALF - 1}\n", "--signed"))
        self.assertEqual(self.made("t", "-5\n7\n", "--offset", "5"), [0, 12])
        self.assertEqual(self.made("t", f"{1 << 64}\n", "--offset", "-1"), [MOST])
        self.assertEqual(self.made("t", "-5\n", "--signed", "--narrow", width=4), [(1 << 31) - 5])

    def test_decimals(self):
        self.assertEqual(self.made("t", "0.07\n1.1\n.5\n3.\n2\n0.29\n", "--scale", "100"),
                         [7, 29, 50, 110, 200, 300])
        self.assertEqual(self.made("t", "1.005\n4.35\n", "--scale", "1000"), [1005, 4350])
        self.assertEqual(self.made("t", "1e2\n2.5E-1\n-0.0\n", "--scale", "100"), [0, 25, 10000])
        self.assertEqual(self.made("t", "-0.07\n0.07\n", "--scale", "100", "--offset", "7"), [0, 14])
        self.assertEqual(self.made("t", "184467440737095516.15\n", "--scale", "100"), [MOST])
        self.assertEqual(self.made("t", "0.1234567890123456789\n", "--scale", str(10 ** 19)),
                         [1234567890123456789])
        self.assertEqual(self.made("t", "1.5\n2\n", "--scale", "6"), [9, 12])
        self.assertEqual(self.made("t", "5.000\n", "--scale", "1"), [5])
        for text, scale, said in [
                ("0.075", "100", "`0.075` times 100 is no whole number: --scale 1000 takes it"),
                ("184467440737095516.16", "100", "is not from 0 to"),
                ("9.99", None, "`9.99` is no whole number: --scale 100 takes it"),
                ("5.0", None, "`5.0` is no whole number: --scale 1 takes it"),
                ("-0.25", None, "`-0.25` is no whole number: --scale 100 --signed takes it"),
                ("1..5", "100", "`1..5` is no number"), (".", "100", "`.` is no number"),
                ("1e9999", "100", "too many places"), ("0x10", "1", "`0x10` is no number"),
                ("1_000", None, "`1_000` is no number"), ("１", None, "`１` is no number")]:
            self.assertIn(said, self.refused("t", text, *(["--scale", scale] if scale else [])))

    def test_one_scale_for_all(self):
        said = self.refused("t", "9.99\n12.50\n0.0\n7\n")
        self.assertIn("t:2: `12.50` is no whole number: --scale 10 takes it", said)
        self.assertIn("t:3: `0.0` is no whole number: --scale 1 takes it", said)
        self.assertIn("3 wrong rows in all; nothing was written; --scale 100 takes them all", said)
        self.assertNotIn("them all", self.refused("t", "9.99\nx\n"))

    def test_one_offset_for_all(self):
        said = self.refused("t", "-5\n7\n-180\n")
        self.assertIn("t:1: `-5` is below 0: --signed or --offset 5 takes it", said)
        self.assertIn("2 wrong rows in all; nothing was written; --signed or --offset 180 takes "
                      "them all\n", said)
        self.assertEqual(self.made("t", "-5\n7\n-180\n", "--offset", "180"), [0, 175, 187])
        # In a row where both are wrong, both count.
        text = "".join(f"-{at}.5 -{at % 7}.25\n" for at in range(25))
        said = self.refused("t", "7 9\n" + text, "--points")
        self.assertIn("--scale 100 --signed or --scale 100 --offset 2450 takes them all\n", said)
        said = self.refused("t", text, "--points", "--scale", "100")
        self.assertIn("t:2: `-1.25` is below 0: --signed or --offset 125 takes it", said)
        self.assertIn("; --signed or --offset 2450 takes them all\n", said)
        self.assertEqual(min(self.made("t", text, "--points", "--scale", "100", "--offset", "2450",
                                       width=4)), 0)
        self.assertIn("; --offset 2450 takes them all\n", self.refused(
            "t", text, "--points", "--scale", "100", "--offset", "99"))
        # What takes the wrong rows may not take the others.
        said = self.refused("t", f"-5\n-7\n{MOST - 6}\n")
        self.assertNotIn("them all", said)
        self.assertIn("written; --offset 7 takes them all\n",
                      self.refused("t", f"-5\n-7\n{MOST - 7}\n"))
        self.assertNotIn("them all", self.refused("t", f"0.5\n-0.5\n{MOST // 5}\n"))

    def test_help_has_each_option_once(self):
        ran = self.call("--help")
        self.assertEqual((ran.returncode, ran.stderr), (0, ""))
        for option in ("--column", "--narrow", "--skip-empty"):
            self.assertEqual(len([it for it in ran.stdout.splitlines() if it.strip().startswith(option)]), 1)
        self.assertNotIn("positional", ran.stdout)
        self.assertTrue(ran.stdout.rstrip().endswith("half a second with numpy."))

    def test_doubles(self):
        below = lambda bits: MOST ^ bits
        self.assertEqual(
            self.made("t", "1.5\n-0.0\n0\n-1.5\ninf\n-inf\n2\n0.1\n", "--float"),
            [below(0xFFF0 << 48), below(0xBFF8 << 48), HALF, HALF, HALF | 0x3FB999999999999A,
             HALF | 0x3FF8 << 48, HALF | 0x4000 << 48, HALF | 0x7FF0 << 48])
        self.assertEqual(self.made("t", "0.10000000000000001\n", "--float"),
                         [HALF | 0x3FB999999999999A])
        self.assertEqual(self.made("t", f"{1 << 53}\n", "--float"), [HALF | 0x4340 << 48])
        for text in ("9007199254740993", "0.1000000000000000001", "1e400", "1e-400"):
            self.assertIn("would lose digits as a double", self.refused("t", text, "--float"))
        self.assertIn("--skip-empty", self.refused("t", "nan\n1\n", "--float"))
        self.assertEqual(self.made("t", "nan\n0\n", "--float", "--skip-empty"), [HALF])

    def test_dates(self):
        self.assertEqual(self.made("t", "1970-01-02\n0001-01-01\n1970-01-01\n", "--time"),
                         [0, EPOCH, EPOCH + 86400 * 10 ** 6])
        self.assertEqual(
            self.made("t", "1970-01-01T00:00:00.5Z\n1970-01-01T01:00:00+01:00\n"
                      "1969-12-31 23:59:59.999999Z\n1970-01-01t00:00-0130\n", "--time"),
            [EPOCH - 1, EPOCH, EPOCH + 500000, EPOCH + 5400 * 10 ** 6])
        # 2000-03-01 is 11,017 days behind 1970-01-01, and 2000 has a 29th of February.
        self.assertEqual(self.made("t", "2000-03-01\n2000-02-29T12:00:00.000\n", "--time"),
                         [EPOCH + (11016 * 86400 + 43200) * 10 ** 6, EPOCH + 11017 * 86400 * 10 ** 6])
        self.assertEqual(self.made("t", "1970-01-01T00:00:00.000000001\n1969-12-31\n", "--nanoseconds"),
                         [HALF - 86400 * 10 ** 9, HALF + 1])
        for text, words, said in [
                ("1900-02-29", ["--time"], "is no date: day is out of range"),
                ("2026-04-31T10:00:00", ["--time"], "is no date"),
                ("2026-13-01", ["--time"], "is no date"), ("2026-1-1", ["--time"], "is no date"),
                ("2026-01-01T24:00:00", ["--time"], "is no date"),
                ("2026-01-01T00:00:60Z", ["--time"], "is no date"),
                ("0000-01-01", ["--time"], "is no date"),
                ("2026-01-01T00:00:00.1234567", ["--time"], "--nanoseconds keeps nine"),
                ("2026-01-01T00:00:00.1234567891", ["--nanoseconds"], "more than 9 places"),
                ("0001-01-01T00:00:00+01:00", ["--time"], "before the year 1"),
                ("2300-01-01", ["--nanoseconds"], "not from 1677 to 2262"),
                ("1600-01-01", ["--nanoseconds"], "not from 1677 to 2262"),
                ("2026-01-01", [], "`2026-01-01` is no number: --time takes dates"),
                ("2026-01-01", ["--float"], "--time takes dates"),
                ("9.99", ["--time"], "--scale takes decimals")]:
            self.assertIn(said, self.refused("t", text + "\n", *words))
        self.assertIn("t:2: a date without a zone, where the first one has one",
                      self.refused("t", "2026-01-01T00:00:00Z\n2026-01-01\n", "--time"))
        self.assertIn("t:3: a date with a zone, where the first one has none", self.refused(
            "t", "2026-01-01\n2026-01-01\n2026-01-01T00:00:00+02:00\n", "--time"))
        self.assertEqual(len(self.made("t", "\n2026-01-01T00:00:00Z\n", "--time", "--skip-empty")), 1)

    def test_prefixes(self):
        self.assertEqual(self.made("a.csv", "c\nDE\nFR\nKuldebiq1\nKuldebiq2\n", "--column", "c",
                                   "--prefix"),
                         [0x4445 << 48, 0x4652 << 48, *[int.from_bytes(b"Kuldebiq", "big")] * 2])
        self.assertEqual(self.made("t", b"\xc3\xa9t\xc3\xa9\n\xff\n", "--prefix"),
                         [0xC3A974C3A9 << 24, 0xFF << 56])
        self.assertIn("--prefix takes the first eight bytes", self.refused("t", "DE\n"))

    def test_rows_of_equal_keys_stand_in_their_order(self):
        self.made("t", "# none\n5\n3\n5\n\n3\n5\n", "--rows", "rows")
        self.assertEqual(self.rows(), ["3 3", "3 6", "5 2", "5 4", "5 7"])

    def test_points(self):
        text = "x,y\n3,0\n0,3\n3,0\n1,1\n"
        words = ["--points", "--column", "x", "--column", "y", "--rows", "rows"]
        self.assertEqual(self.made("a.csv", text, *words, width=4), [3, 0, 0, 3, 3, 0, 1, 1])
        # By the bits of x and y in turn: (1, 1) is 3, (3, 0) is 5, (0, 3) is 10.
        self.assertEqual(self.rows(), ["3 5", "5 2", "5 4", "10 3"])
        self.assertEqual(self.made("t", "1 2 4\n", "--points", "--rows", "rows", width=4), [1, 2, 4])
        # 1 is bit 0 of x, place 0; 2 is bit 1 of y, place 4; 4 is bit 2 of z, place 8.
        self.assertEqual(self.rows(), [f"{1 + 16 + 256} 1"])
        self.assertEqual(self.made("t", "-0.5 0.25\n", "--points", "--scale", "100", "--offset", "50",
                                   width=4), [0, 75])
        self.assertEqual(self.made("a.csv", "x,y\n1,\n2,3\n", *words, "--skip-empty", width=4), [2, 3])
        self.assertIn("a.csv:3: `-1` is below 0", self.refused("a.csv", "x,y\n1,2\n0,-1\n", *words))
        self.assertEqual(self.made("t", "# x y\n\n 7,8\r\n\t9\t1", "--points", "--rows", "rows", width=4),
                         [7, 8, 9, 1])
        # (7, 8) is 21 + 128 and (9, 1) is 65 + 2.
        self.assertEqual(self.rows(), ["67 4", "149 3"])
        self.assertEqual(self.made("t", "", "--points", width=4), [])
        self.assertIn("t:2: 3 numbers in place of 2", self.refused("t", "1 2\n1 2 3\n", "--points"))
        self.assertIn("not 1", self.refused("t", "1\n2\n", "--points"))
        self.assertIn("is not from 0 to 2097151", self.refused("t", "1 2 2097152\n", "--points"))

    def test_words(self):
        for words, said in [
                (["a.npz", "made"], "an archive of arrays (.npz): save one of them by numpy.save"),
                (["a.csv", "made"], "want --column for each number"),
                (["t"], "NUMBERS and FILE are wanted"),
                (["t", "made", "--float", "--time"], "one map is taken"),
                (["t", "made", "--float", "--narrow"], "make keys of 8 bytes"),
                (["t", "made", "--scale", "0"], "--scale wants")]:
            ran = self.call(*words)
            self.assertEqual(ran.returncode, 2)
            self.assertIn(said, ran.stderr)

    def test_no_more_than_twenty_are_told(self):
        said = self.refused("t", "x\n" * 25)
        self.assertEqual(said.count("is no number"), 20)
        self.assertIn("25 wrong rows in all, of which 20 are shown; nothing was written", said)

    def test_there_and_back(self):
        for words, values in [
                ([], ["0", str(MOST)]), (["--scale", "100"], ["9.99", "0.07", "0.00"]),
                (["--scale", "100", "--signed"], ["-9.99", "-0.07", "0.00"]),
                (["--signed"], [str(-HALF), "0"]), (["--float"], ["-inf", "-1.5", "0.0", "0.1", "inf"]),
                (["--time"], ["0001-01-01T00:00:00", "2026-02-28T23:59:59.5",
                              "9999-12-31T23:59:59.999999"]),
                (["--nanoseconds"], ["1970-01-01T00:00:00.000000001", "1677-09-22T00:00:00"]),
                (["--prefix"], ["DE", "Kuldebiq"])]:
            keys = self.call(*words, "--key", *values).stdout.split()
            self.assertEqual(self.call(*words, "--back", *keys).stdout.splitlines(), values)
        ran = self.call("--scale", "100", "--back", given="999\n7\n")
        self.assertEqual(ran.stdout, "9.99\n0.07\n")
        self.assertIn("is no whole number", self.call("--key", "9.99").stderr)

    @unittest.skipUnless(FAST, "no interpreter here has numpy")
    def test_arrays(self):
        def array(expression, name="a.npy"):
            subprocess.run([FAST, "-c", f"import numpy; numpy.save({name!r}, {expression})"],
                           cwd=self.room, check=True)
            return (self.room / name).read_bytes()

        def made(expression, *words, width=8):
            return self.made("a.npy", array(expression), *words, width=width)

        self.assertEqual(made(f"numpy.array([5, {MOST}, 0], numpy.uint64)"), [0, 5, MOST])
        self.assertEqual(made("numpy.array([5, -128], numpy.int8)", "--signed", "--rows", "rows"),
                         [HALF - 128, HALF + 5])
        self.assertEqual(self.rows(), [f"{HALF - 128} 1", f"{HALF + 5} 0"])
        self.assertEqual(made(f"numpy.array([{-HALF}, {HALF - 1}])", "--signed"), [0, MOST])
        self.assertEqual(made("numpy.array([7, 3], '>u2')", "--scale", "10"), [30, 70])
        self.assertEqual(made("numpy.array([0.07, 1.1, 4.35, numpy.nan])", "--scale", "100",
                              "--skip-empty"), [7, 110, 435])
        self.assertEqual(made("numpy.array([0.07, 1.1], 'f4')", "--scale", "100"), [7, 110])
        self.assertEqual(made("numpy.array([-0.0, 0.0, 1.5])", "--float"),
                         [HALF, HALF, HALF | 0x3FF8 << 48])
        self.assertEqual(made("numpy.array(['1970-01-01', 'NaT'], 'M8[ns]')", "--time", "--skip-empty"),
                         [EPOCH])
        self.assertEqual(made("numpy.array(['DE', 'A'])", "--prefix"), [0x41 << 56, 0x4445 << 48])
        self.assertEqual(made("numpy.array([[1, 2], [3, 4]])", "--points", width=4), [1, 2, 3, 4])
        self.assertEqual(made("numpy.array([[1, 2], [3, 4]], order='F')", "--points", width=4),
                         [1, 2, 3, 4])
        for expression, words, said in [
                ("numpy.array([1, -5])", [], "a.npy: row 1: `-5` is below 0: --signed or --offset 5"),
                ("numpy.array([1.5])", [], "a.npy: row 0: `1.5` is no whole number: --scale 10"),
                ("numpy.array([0.075])", ["--scale", "100"], "--scale 1000 takes it"),
                ("numpy.array([1.0, numpy.nan])", ["--float"], "row 1: an empty cell: --skip-empty"),
                ("numpy.array([2 ** 53 + 1])", ["--float"], "would lose digits"),
                ("numpy.array([True])", [], "an array of bool"),
                ("numpy.array([[1]])", [], "an array of the shape (1, 1)")]:
            self.assertIn(said, self.refused("a.npy", array(expression), *words))
        self.assertIn("no array that numpy saved", self.refused("a.npy", b"19\n7\n"))


@unittest.skipUnless(FAST, "no interpreter here has numpy")
class Fast(Plain):
    python = [FAST]

    def test_both_agree_on_random_cells(self):
        draw = random.Random(7)
        forms = [lambda: str(draw.getrandbits(draw.choice((8, 31, 63, 64, 65)))),
                 lambda: f"{draw.choice(('', '-', '+'))}{draw.getrandbits(draw.choice((8, 40, 62)))}"
                         f".{draw.getrandbits(draw.choice((3, 20)))}",
                 lambda: f"{draw.randrange(3000):04}-{draw.randrange(14):02}-{draw.randrange(33):02}",
                 lambda: f"{draw.randrange(1, 3000):04}-{draw.randrange(1, 13):02}-{draw.randrange(1, 32):02}"
                         f"{draw.choice('T ')}{draw.randrange(25):02}:{draw.randrange(60):02}:"
                         f"{draw.randrange(61):02}"
                         f"{draw.choice(('', f'.{draw.randrange(10 ** draw.randrange(1, 9))}'))}",
                 lambda: "".join(draw.choice("0123456789.-+eT:Z ä") for _ in range(draw.randrange(12)))]
        for form in forms:
            cells = [form().strip() for _ in range(2000)]
            text = "c,d\n" + "".join(f"{cell},\n" for cell in cells)
            for words in ([], ["--scale", "1000", "--signed"], ["--scale", "8", "--offset", "9"], ["--float"],
                          ["--time"], ["--nanoseconds"], ["--prefix"], ["--signed", "--narrow"]):
                self.agree(text, cells, words)

    def test_texts_of_many_pieces(self):
        draw = random.Random(11)
        forms = [lambda: str(draw.getrandbits(64)), lambda: f" {draw.getrandbits(draw.choice((4, 60)))}\t",
                 lambda: "# none", lambda: "", lambda: "\r", lambda: "0" * 24 + "7", lambda: str(MOST)]
        for weights in ([1, 0, 0, 0, 0, 0, 0], [50, 50, 1, 1, 1, 1, 1]):
            lines = [form() for form in draw.choices(forms, weights, k=40_000)]
            numbered = sorted((int(it), at) for at, it in enumerate(lines, 1) if it.strip().isdigit())
            self.assertEqual(self.made("t", "\n".join(lines), "--rows", "rows"), [it for it, _ in numbered])
            self.assertEqual(self.rows(), [f"{key} {row}" for key, row in numbered])
            lines[35_432] = str(MOST + 1)
            self.assertIn(f"t:35433: `{MOST + 1}` is not from 0", self.refused("t", "\n".join(lines)))

    def test_csv_of_many_pieces(self):
        words = ["--column", "2", "--scale", "100"]
        keys = [at * 100 + at % 100 for at in range(50_000)]
        for more in (lambda at: "", lambda at: ",y" * (at % 9999 == 0) + "\n\r" * (at % 7777 == 0)):
            rows = [f"{at * at},{at}.{at % 100:02},x{more(at)}" for at in range(50_000)]
            self.assertEqual(self.made("a.csv", "\n".join(rows), *words), keys)
        rows[8000] = "8000"
        # Line 7777 has a blank one behind it, and so has line 0.
        self.assertIn("a.csv:8003: no column 2", self.refused("a.csv", "\n".join(rows), *words))

    def test_points_of_many_pieces(self):
        lines = [f"{at},{at // 7}" + "\n#" * (at % 9999 == 0) for at in range(40_000)]
        self.assertEqual(self.made("t", "\n".join(lines), "--points", width=4),
                         [it for at in range(40_000) for it in (at, at // 7)])
        lines[30_000] += " 1"
        self.assertIn("t:30005: 3 numbers in place of 2", self.refused("t", "\n".join(lines), "--points"))

    def test_keys_that_lie_close_together(self):
        for low in (0, MOST - 2999):
            keys = [low + it for it in range(2000)] + [low + 2999] * 3 + [low + 5] * 2
            random.Random(3).shuffle(keys)
            self.assertEqual(self.made("t", "\n".join(map(str, keys))), sorted(keys))

    def agree(self, text, cells, words):
        """Both refuse the same cells in the same words, and make the same keys of the others."""
        self.put("a.csv", text)
        check = ("import sys; sys.path.insert(0, sys.argv[1]); import key_maps, keys; of = "
                 "key_maps.%s; found = keys.mapped(of, keys.read_csv('a.csv', ['c'], ',').columns[0]); "
                 "bad = {i for i, _ in found[1] + found[2]}; "
                 "print([None if i in bad else int(k) for i, k in enumerate(found[0])]); "
                 "print(found[1], [(i, str(why)) for i, why in found[2]])")
        below = 1 << (32 if "--narrow" in words else 64)
        scale = int(words[words.index("--scale") + 1]) if "--scale" in words else None
        offset = below // 2 if "--signed" in words else 9 if "--offset" in words else 0
        of = {"--float": "Floats()", "--time": "Times()", "--nanoseconds": "Times(True)",
              "--prefix": "Prefixes()"}.get(words[0] if words else "", f"Decimals({below}, {scale}, {offset})")
        said = [subprocess.run([*python, "-c", check % of, KEYS.parent], cwd=self.room, text=True,
                               stdout=subprocess.PIPE, check=True).stdout for python in (PLAIN, [FAST])]
        self.assertEqual(*said, words)

    @unittest.skipUnless(has(FAST, "pandas"), "no interpreter here has pandas")
    def test_columns_of_a_table(self):
        check = f"""
import sys
sys.path.insert(0, {str(KEYS.parent)!r})
import keys, key_maps, pandas
def keys_of(series, of):
    made, empty, wrong, _ = keys.mapped(of, keys.array_of(series))
    empty = [it for it, _ in empty]
    return [0 if it in empty else key for it, key in enumerate(made.tolist())], empty, wrong
whole = key_maps.Decimals(1 << 64)
print(keys_of(pandas.Series([{MOST}, None, 9007199254740993], dtype="UInt64"), whole))
print(keys_of(pandas.Series([3, 1], dtype="Int64"), whole))
times = pandas.to_datetime(pandas.Series(["1970-01-01T01:00:00+01:00", None]))
print(keys_of(times, key_maps.Times()))
print(keys_of(pandas.Series(["DE", None]), key_maps.Prefixes()))
print(keys_of(pandas.Series([0.07, None]), key_maps.Decimals(1 << 64, 100)))
"""
        ran = subprocess.run([FAST, "-c", check], stdout=subprocess.PIPE, text=True, check=True)
        self.assertEqual(ran.stdout.splitlines(), [
            str(([MOST, 0, 9007199254740993], [1], [])), str(([3, 1], [], [])),
            str(([EPOCH, 0], [1], [])), str(([0x4445 << 48, 0], [1], [])), str(([7, 0], [1], []))])

    @unittest.skipUnless(has(FAST, "pandas") and not has(FAST, "pyarrow"), "pandas reads Parquet here")
    def test_where_pandas_reads_no_parquet(self):
        said = self.refused("a.parquet", b"PAR1", "--column", "id")
        self.assertIn("pyarrow or fastparquet", said)


if __name__ == "__main__":
    unittest.main()
