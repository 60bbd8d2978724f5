"""Parts in one process: beside numpy.searchsorted, and with each file damaged."""

import doctest
import json
import os
import subprocess
import sys
import warnings

import numpy
import pytest

import kuldebiq
from kuldebiq import SortedKeys, parts
from kuldebiq.parts import _folder, _make

GREATEST = (1 << 64) - 1
chance = numpy.random.default_rng(7)
ROWS = {
    "none": [],
    "one": [GREATEST],
    "ends": [0, GREATEST, 0, GREATEST, GREATEST],
    "random": chance.integers(0, 1 << 64, 50_000, dtype=numpy.uint64),
    # A double holds none of the differences here.
    "above 2^53": (1 << 60) + chance.integers(0, 300, 20_000, dtype=numpy.uint64),
    "equal": numpy.full(30_000, 1 << 63, numpy.uint64),
    "some equal": numpy.repeat(chance.integers(0, 1 << 64, 9, dtype=numpy.uint64), 3_000),
    "rising": numpy.arange(40_000, dtype=numpy.uint64) * 3,
}


def questions_of(whole):
    """The keys, what is beside them, and the ends of all numbers."""
    some = whole[:: max(len(whole) // 2_000, 1)]
    one = numpy.uint64(1)
    return numpy.concatenate([some, some - one, some + one, numpy.array([0, GREATEST], "u8")])


def assert_answers(asked, row):
    whole = numpy.sort(numpy.asarray(row, numpy.uint64))
    questions = questions_of(whole)
    assert len(asked) == len(whole)
    assert (asked.positions(questions) == whole.searchsorted(questions)).all()
    lows, highs = questions, questions[::-1]
    counts = whole.searchsorted(highs, side="right") - whole.searchsorted(lows)
    assert (asked.counts(lows, highs) == numpy.maximum(counts, 0)).all()
    assert (asked.keys() == whole).all()
    third = len(whole) // 3
    assert (asked.keys(third, 2 * third + 1) == whole[third : 2 * third + 1]).all()
    assert (asked.keys(-3, None) == whole[-3:]).all()
    assert len(asked.keys(9, 3)) == 0


def made_in(folder, row=ROWS["random"], rows=6_000, **more):
    return parts.make(row, folder, rows=rows, **more)


def names(folder):
    return sorted(os.listdir(folder))


def test_examples_in_docs():
    assert doctest.testmod(parts).failed == 0


@pytest.mark.parametrize("rows", [1, 7, 5_000, 1 << 24])
@pytest.mark.parametrize("name", ROWS)
def test_answers_are_those_of_the_whole_list(tmp_path, name, rows):
    row = numpy.array(ROWS[name], numpy.uint64)
    row = row[: rows * 100]
    assert_answers(made_in(tmp_path / "parts", row, rows), row)
    assert_answers(parts.Parts(tmp_path / "parts"), row)


@pytest.mark.parametrize("name", ["random", "above 2^53", "equal", "some equal", "rising"])
def test_parts_have_about_as_many_rows_as_was_asked(tmp_path, name):
    made_in(tmp_path, ROWS[name], 5_000)
    _, found, _ = _folder.load(tmp_path)
    assert len(found) == -(-len(ROWS[name]) // 5_000)
    assert all(2_500 < part.count < 7_500 for part in found)


def test_the_files_are_key_files_and_their_hints(tmp_path):
    made_in(tmp_path, epsilon=17)
    epsilon, found, _ = _folder.load(tmp_path)
    assert epsilon == 17 and len(found) == 9
    for part in found:
        keys = SortedKeys(kuldebiq.key_file(tmp_path / part.keys), epsilon=17)
        assert keys.hints.tobytes() == (tmp_path / part.hints).read_bytes()
        assert (part.first, part.last, part.count) == (keys[0], keys[-1], len(keys))
        assert part.lines == int(keys.hints[2])


def test_numbers_come_from_files(tmp_path):
    row = ROWS["random"] >> numpy.uint64(33)
    few = [row[:5], row[5:9_000], row[9_000:9_000], row[9_000:]]
    numpy.save(tmp_path / "a.npy", few[0].astype(numpy.int64))
    numpy.save(tmp_path / "b.npy", few[1].astype(numpy.uint32)[::-1])
    for name, part, dtype in (("c.keys", few[2], "<u8"), ("d.keys", few[3], "<u4")):
        content = numpy.sort(part).astype(dtype).tobytes()
        (tmp_path / name).write_bytes(len(part).to_bytes(8, "little") + content)
    files = [tmp_path / name for name in names(tmp_path)]
    numpy.save(tmp_path / "empty.npy", row[:0])
    files.insert(1, tmp_path / "empty.npy")
    assert_answers(made_in(tmp_path / "parts", files), row)
    assert_answers(made_in(tmp_path / "part", str(files[-1])), few[3])


@pytest.mark.parametrize(
    "row, error",
    [
        (numpy.array([1.0, 2.0]), TypeError),
        (numpy.array([[1, 2]]), TypeError),
        (numpy.array([1, -2]), OverflowError),
        (numpy.array(["a"]), TypeError),
    ],
)
def test_what_is_no_row_of_whole_numbers_is_refused(tmp_path, row, error):
    numpy.save(tmp_path / "some.npy", row)
    for source in (row, tmp_path / "some.npy"):
        with pytest.raises(error):
            made_in(tmp_path / "parts", source)
    assert not (tmp_path / "parts" / "parts.json").exists()


@pytest.mark.parametrize("more", [{"rows": 0}, {"rows": 1 << 32}, {"epsilon": 1 << 21}])
def test_bad_numbers_are_refused(tmp_path, more):
    with pytest.raises(ValueError):
        made_in(tmp_path / "parts", **more)
    with pytest.raises(FileNotFoundError):
        parts.Parts(tmp_path)


def test_highs_stand_beside_lows(tmp_path):
    with pytest.raises(ValueError, match="2 lows and 1 highs"):
        made_in(tmp_path).counts([1, 2], [3])
    with pytest.raises(OverflowError):
        parts.Parts(tmp_path).positions([-1])


def test_a_folder_is_made_again(tmp_path):
    before = made_in(tmp_path)
    assert (before.positions(ROWS["random"][:9]) >= 0).all()
    (tmp_path / ".part-00001.keys.77.tmp").write_bytes(b"left")
    (tmp_path / "part-00004-9.hints").write_bytes(b"left")
    (tmp_path / "mine").write_bytes(b"mine")
    after = made_in(tmp_path, ROWS["rising"], 30_000)
    assert names(tmp_path) == sorted(
        ["mine", "parts.json"]
        + [f"part-{number:05}-10.{kind}" for number in (0, 1) for kind in ("hints", "keys")]
    )
    assert_answers(after, ROWS["rising"])
    with pytest.raises(ValueError, match="part-00000.keys"):
        before.positions([0])


def test_a_call_that_is_cut_off_leaves_the_old_folder(tmp_path, monkeypatch):
    made_in(tmp_path)
    renamed, rename = [], os.replace

    def break_off(source, target):
        if len(renamed) == stop:
            raise KeyboardInterrupt
        rename(source, target)
        renamed.append(target)

    monkeypatch.setattr(os, "replace", break_off)
    # Two parts have four files, and the fifth to be renamed is the list.
    for stop in range(6):
        renamed.clear()
        try:
            made_in(tmp_path, ROWS["rising"], 20_000)
        except KeyboardInterrupt:
            assert stop < 5
            assert_answers(parts.Parts(tmp_path), ROWS["random"])
    assert_answers(parts.Parts(tmp_path), ROWS["rising"])
    assert len(names(tmp_path)) == 5


def test_a_call_that_is_cut_off_behind_the_list_leaves_the_new_folder(tmp_path, monkeypatch):
    made_in(tmp_path)
    with monkeypatch.context() as patched:
        patched.setattr(_make, "clear", None)
        with pytest.raises(TypeError):
            made_in(tmp_path, ROWS["rising"], 20_000)
    assert_answers(parts.Parts(tmp_path), ROWS["rising"])
    assert len(names(tmp_path)) == 18 + 5
    made_in(tmp_path)
    assert len(names(tmp_path)) == 18 + 1


def test_each_byte_of_the_list_may_be_damaged(tmp_path):
    row = ROWS["random"][:30]
    made_in(tmp_path, row, 20)
    path, questions = tmp_path / "parts.json", questions_of(numpy.sort(row))
    content = path.read_bytes()
    right = parts.Parts(tmp_path).positions(questions).tolist()
    refused = 0
    for at in range(len(content)):
        for byte in {content[at] ^ 1, content[at] ^ 128, ord("9")}:
            path.write_bytes(content[:at] + bytes([byte]) + content[at + 1 :])
            try:
                assert parts.Parts(tmp_path).positions(questions).tolist() == right
            except ValueError as error:
                assert "parts.json" in str(error)
                refused += 1
    assert refused > len(content)
    for stop in range(len(content) - 1):
        path.write_bytes(content[:stop])
        with pytest.raises(ValueError, match="parts.json"):
            parts.Parts(tmp_path)


def test_a_newer_format_is_refused(tmp_path):
    made_in(tmp_path)
    path = tmp_path / "parts.json"
    path.write_text(json.dumps({**json.loads(path.read_text()), "format": 2}))
    with pytest.raises(ValueError, match="parts.json.*format 2.*newer"):
        parts.Parts(tmp_path)


@pytest.mark.parametrize("named", ["../part-00000.keys", "/etc/passwd", "some.keys"])
def test_a_list_names_files_of_its_folder_alone(tmp_path, named):
    made_in(tmp_path)
    epsilon, found, _ = _folder.load(tmp_path)
    _folder.save(tmp_path, epsilon, [found[0]._replace(keys=named), *found[1:]])
    with pytest.raises(ValueError, match="parts.json"):
        parts.Parts(tmp_path)


def test_parts_that_arent_in_order_are_refused(tmp_path):
    made_in(tmp_path)
    epsilon, found, _ = _folder.load(tmp_path)
    for wrong in (
        found[3]._replace(first=found[3].last + 1),
        found[3]._replace(first=found[2].last - 1),
        found[3]._replace(offset=found[3].offset + 1),
        found[3]._replace(count=0),
    ):
        _folder.save(tmp_path, epsilon, [*found[:3], wrong, *found[4:]])
        with pytest.raises(ValueError, match="part-00003.keys"):
            parts.Parts(tmp_path)


def swap(one, other):
    content = one.read_bytes()
    one.write_bytes(other.read_bytes())
    other.write_bytes(content)


SPOILED_KEYS = [
    lambda path: path.unlink(),
    lambda path: os.truncate(path, path.stat().st_size - 1),
    lambda path: os.truncate(path, 3),
    lambda path: path.write_bytes(path.read_bytes() + b"0"),
    lambda path: path.write_bytes(b"\1" + path.read_bytes()[1:]),
    lambda path: path.write_bytes(path.read_bytes()[:8] + bytes(8) + path.read_bytes()[16:]),
    lambda path: path.write_bytes(path.read_bytes()[:-8] + bytes(8)),
    lambda path: swap(path, path.with_name("part-00003.keys")),
]


@pytest.mark.parametrize("spoil", SPOILED_KEYS)
def test_a_part_that_isnt_the_one_that_was_made_is_refused(tmp_path, spoil):
    asked = made_in(tmp_path)
    spoil(tmp_path / "part-00002.keys")
    with pytest.raises(ValueError, match="part-00002.keys"):
        parts.Parts(tmp_path)
    with pytest.raises(ValueError, match="part-0000[23].keys"):
        asked.positions(ROWS["random"])


SPOILED_HINTS = [
    lambda path: path.unlink(),
    lambda path: os.truncate(path, path.stat().st_size - 8),
    lambda path: os.truncate(path, 17),
    lambda path: path.write_bytes(b""),
    lambda path: path.write_bytes(bytes([path.read_bytes()[0] ^ 1]) + path.read_bytes()[1:]),
    lambda path: path.write_bytes(path.read_bytes()[:-2] + b"ab"),
    lambda path: path.write_bytes(path.with_name("part-00003.hints").read_bytes()),
]


@pytest.mark.parametrize("spoil", SPOILED_HINTS)
def test_hints_may_be_anything(tmp_path, spoil):
    made_in(tmp_path)
    spoil(tmp_path / "part-00002.hints")
    with pytest.warns(parts.HintsWarning, match="part-00002.hints") as told:
        assert_answers(parts.Parts(tmp_path), ROWS["random"])
    assert len([each for each in told if each.category is parts.HintsWarning]) == 1


def test_nothing_is_opened_that_isnt_asked(tmp_path):
    row = numpy.sort(ROWS["random"])
    made_in(tmp_path)
    asked = parts.Parts(tmp_path)
    (tmp_path / "part-00005.keys").unlink()
    (tmp_path / "part-00006.hints").unlink()
    with warnings.catch_warnings():
        warnings.simplefilter("error")
        assert asked.positions(row[:100]).tolist() == list(range(100))
        assert asked.keys(0, 9).tolist() == row[:9].tolist()


def mapped_files(folder):
    """The files of a folder that this process has mapped, each with its bytes in this memory."""
    found, path = {}, None
    with open("/proc/self/smaps") as file:
        for line in file:
            name, *rest = line.split()
            if not name.endswith(":"):
                path = line[line.index("/") :].strip() if "/" in line else ""
            elif name == "Rss:" and path.startswith(str(folder)):
                found[os.path.basename(path)] = int(rest[0])
    return found


def test_pages_of_parts_are_given_back_and_removed_parts_unmapped(tmp_path):
    row = numpy.sort(ROWS["random"])
    made_in(tmp_path).positions(row)
    first = mapped_files(tmp_path)
    assert sorted(first) == [f"part-{number:05}.keys" for number in range(9)]
    assert set(first.values()) == {0}
    made = made_in(tmp_path)
    assert (made.keys() == row).all()
    again = mapped_files(tmp_path)
    assert sorted(again) == [f"part-{number:05}-1.keys" for number in range(9)]
    assert set(again.values()) == {0}


@pytest.mark.parametrize("name", [name for name in ROWS if name != "none"])
@pytest.mark.parametrize("rows", [50, 900, 5_000])
def test_the_whole_list_spares_at_most_so_many_lines(tmp_path, name, rows):
    row = numpy.sort(numpy.array(ROWS[name], numpy.uint64))[: rows * 40]
    made = made_in(tmp_path, row, rows, epsilon=3)
    whole = int(SortedKeys(row, epsilon=3).hints[2])
    assert whole <= made.lines <= whole + made.spare
    assert f"{made.lines:,} lines" in str(made) and str(made) in repr(made)


def test_progress_is_shown_if_asked(tmp_path, capsys):
    made = made_in(tmp_path, progress=True)
    assert capsys.readouterr().out.endswith(f"{made}\n")
    made_in(tmp_path)
    assert capsys.readouterr().out == ""


def test_the_engine_isnt_needed():
    code = (
        "import sys; sys.modules.update(dict.fromkeys(['dask', 'distributed', 'pandas']));"
        "import tempfile; from kuldebiq import parts;"
        "print(parts.make([3, 1, 2], tempfile.mkdtemp(), rows=2).positions([3]))"
    )
    done = subprocess.run([sys.executable, "-c", code], capture_output=True, text=True)
    assert done.stdout == "[2]\n", done.stderr
