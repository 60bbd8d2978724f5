"""Parts by three processes of dask.distributed: beside numpy in the whole list, and with workers
killed.

A worker is killed by a call of the work itself, so nothing here waits for a time.
KULDEBIQ_PARTS_NUMBERS says how many numbers the lists from files have (200,000 without it), and
KULDEBIQ_PARTS_MEMORY has the test of memory run, with so many bytes for each worker.
"""

import importlib
import os
import signal
import sys
import time
from contextlib import contextmanager, suppress

import numpy
import pytest

pytest.importorskip("distributed", reason="parts on an engine: dask.distributed isn't there")
pytest.importorskip("pandas", reason="parts on an engine: pandas isn't there")

import cloudpickle  # noqa: E402 (these are there if distributed is)
import dask  # noqa: E402
import dask.array  # noqa: E402
import dask.dataframe  # noqa: E402
import pandas  # noqa: E402
from distributed import Client, LocalCluster  # noqa: E402
from test_parts import ROWS, assert_answers, questions_of  # noqa: E402
from test_parts_points import POINTS, assert_boxes, boxes_of  # noqa: E402

from kuldebiq import parts  # noqa: E402
from kuldebiq.parts import _folder  # noqa: E402

# Workers needn't find this file.
cloudpickle.register_pickle_by_value(sys.modules[__name__])

NUMBERS = int(os.environ.get("KULDEBIQ_PARTS_NUMBERS", "200000"))
MEMORY = os.environ.get("KULDEBIQ_PARTS_MEMORY")
WORKERS = 3
# So many seconds a killed worker has to come back; behind them the others go on without it.
LIMIT = 60
PATIENT = {
    "distributed.comm.timeouts.connect": "120s",
    "distributed.comm.timeouts.tcp": "120s",
    "distributed.scheduler.allowed-failures": 20,
    # A worker that is killed twice, so long apart, would be given up.
    "distributed.deploy.lost-worker-timeout": "1h",
}


@contextmanager
def client_of(memory, folder):
    """The client of three processes, or a skipped test where they can't be started."""
    with dask.config.set(PATIENT):
        try:
            cluster = LocalCluster(
                n_workers=WORKERS,
                threads_per_worker=1,
                processes=True,
                memory_limit=memory,
                host="127.0.0.1",
                dashboard_address="127.0.0.1:0",
                local_directory=str(folder),
            )
            client = Client(cluster)
        except Exception as error:
            pytest.skip(f"parts on an engine: processes can't be started: {error!r}")
        try:
            yield client
        finally:
            # What isn't closed in time ends with this process, and says nothing of the parts.
            for thing in (client, cluster):
                with suppress(Exception):
                    thing.close(timeout=60)


@pytest.fixture(scope="module")
def client(tmp_path_factory):
    with client_of(0, tmp_path_factory.mktemp("workers")) as client:
        yield client


@pytest.fixture(scope="module")
def row():
    chance = numpy.random.default_rng(3)
    row = chance.integers(0, 1 << 64, NUMBERS, dtype=numpy.uint64)
    row[::4] = (1 << 63) + chance.integers(0, 99, len(row[::4]), dtype=numpy.uint64)
    return row


@pytest.fixture(scope="module")
def files(row, tmp_path_factory):
    return files_of(row, tmp_path_factory.mktemp("numbers"))


def files_of(row, folder, count=6):
    paths = [folder / f"{number}.npy" for number in range(count)]
    for path, some in zip(paths, numpy.array_split(row, count)):
        numpy.save(path, some)
    return paths


def sources(row):
    """The same numbers as collections of Dask."""
    yield dask.array.from_array(row, chunks=len(row) // 5 + 1)
    frame = pandas.DataFrame({"other": 1, "key": row})
    yield dask.dataframe.from_pandas(frame, npartitions=4)["key"]


def test_answers_are_those_of_the_whole_list(client, row, files, tmp_path):
    for source in [files, *sources(row)]:
        made = parts.make(source, tmp_path, client, rows=NUMBERS // 9)
        assert_answers(made, row)
        assert_answers(parts.Parts(tmp_path), row)


@pytest.mark.parametrize("name", ["none", "one", "ends", "above 2^53", "equal", "some equal"])
def test_answers_in_such_rows(client, name, tmp_path):
    row = numpy.array(ROWS[name], numpy.uint64)
    made = parts.make(row, tmp_path, client, rows=max(len(row) // 4, 1))
    assert_answers(made, row)
    _, found, _ = _folder.load(tmp_path)
    assert all(part.count < len(row) // 2 + 2 for part in found)


def test_more_parts_than_dask_makes_in_one_step(client, tmp_path):
    row = ROWS["random"][:8_000]
    for chunks, count in ((1, 34), (40, 34), (34, 40)):
        source = dask.array.from_array(row, chunks=-(-len(row) // chunks))
        made = parts.make(source, tmp_path, client, rows=len(row) // count)
        assert_answers(made, row)


def test_a_client_that_isnt_the_default_one(client, files, row, tmp_path, capsys):
    with Client(client.scheduler.address, set_as_default=False) as other:
        made = parts.make(files, tmp_path, other, rows=NUMBERS // 3, progress=True)
        assert_answers(made, row)
    shown = capsys.readouterr().out
    assert "Completed" in shown and shown.endswith(f"{made}\n")


def test_refusals_come_from_the_workers(client, tmp_path):
    for row, error in ((numpy.array([1.5, 2]), TypeError), (numpy.array([3, -1]), OverflowError)):
        with pytest.raises(error):
            parts.make(dask.array.from_array(row), tmp_path, client)
    with pytest.raises(TypeError, match="column"):
        parts.make(dask.dataframe.from_pandas(pandas.DataFrame({"a": [1]}), 1), tmp_path, client)
    assert os.listdir(tmp_path) == []


def test_damaged_hints_and_missing_parts(client, files, row, tmp_path):
    asked = parts.make(files, tmp_path, client, rows=NUMBERS // 9)
    (tmp_path / "part-00001.hints").write_bytes(b"damaged!")
    (tmp_path / "part-00002.hints").unlink()
    whole = numpy.sort(row)
    questions = questions_of(whole)
    with pytest.warns(parts.HintsWarning) as told:
        assert (asked.positions(questions) == whole.searchsorted(questions)).all()
    told = [str(each.message) for each in told if each.category is parts.HintsWarning]
    assert len(told) == 2
    assert all(any(f"part-0000{part}.hints" in text for text in told) for part in (1, 2))
    (tmp_path / "part-00004.keys").unlink()
    with pytest.raises(ValueError, match="part-00004.keys"):
        asked.positions(questions)
    with pytest.raises(ValueError, match="part-00004.keys"):
        parts.Parts(tmp_path, client)


# A worker that is killed.


def arm(module, name, marker, is_after):
    """In a worker: the call of this name kills the first process that makes it, of all workers."""
    home = importlib.import_module(module)
    call = getattr(home, name)

    def deadly(*words, **named):
        answer = call(*words, **named) if is_after else None
        try:
            os.close(os.open(marker, os.O_CREAT | os.O_EXCL))
        except FileExistsError:
            return answer if is_after else call(*words, **named)
        os.kill(os.getpid(), signal.SIGKILL)

    setattr(home, name, deadly)


def arm_all(client, *what):
    """Arm all workers, three if a killed one comes back, and two at least."""
    stop = time.monotonic() + LIMIT
    while True:
        armed = client.run(arm, *what, on_error="ignore")
        are_all = set(armed) == set(client.nthreads())
        if are_all and len(armed) == WORKERS:
            return
        if time.monotonic() > stop:
            break
        time.sleep(0.1)
    if not are_all or len(armed) < 2:
        pytest.skip("parts on an engine: killed workers weren't started again")


@pytest.mark.parametrize(
    "name, is_after",
    [
        ("row_of", False),
        ("part_numbers", False),
        ("part_numbers", True),
        ("make_hints", False),
        ("write_whole", True),
    ],
)
def test_a_worker_is_killed_while_parts_are_made(client, files, row, tmp_path, name, is_after):
    marker = str(tmp_path / "killed")
    arm_all(client, "kuldebiq.parts._make", name, marker, is_after)
    made = parts.make(files, tmp_path / "parts", client, rows=NUMBERS // 9)
    assert os.path.exists(marker)
    assert_answers(made, row)
    # What the killed one has left is cleared by the next call.
    parts.make(files, tmp_path / "parts", client, rows=NUMBERS // 2)
    _, found, _ = _folder.load(tmp_path / "parts")
    assert len(os.listdir(tmp_path / "parts")) == 2 * len(found) + 1


@pytest.mark.parametrize("name, is_after", [("opened", False), ("opened", True)])
def test_a_worker_is_killed_while_it_is_asked(client, files, row, tmp_path, name, is_after):
    marker = str(tmp_path / "killed")
    made = parts.make(files, tmp_path / "parts", client, rows=NUMBERS // 9)
    arm_all(client, "kuldebiq.parts._ask", name, marker, is_after)
    assert_answers(made, row)
    assert os.path.exists(marker)
    assert_answers(made, row)


# Points.


@pytest.fixture(scope="module")
def points():
    points = POINTS[3, "random"].copy()
    points[::3] = POINTS[3, "near"][::3]
    return points


def sources_of_points(points, folder):
    """The same points as files and as collections of Dask."""
    yield files_of(points, folder)
    yield dask.array.from_array(points, chunks=(len(points) // 5 + 1, 2))
    frame = pandas.DataFrame({"other": 0.5, "x": points[:, 0], "y": points[:, 1]})
    frame["z"] = points[:, 2].astype(numpy.int32)
    yield dask.dataframe.from_pandas(frame, npartitions=4)[["x", "y", "z"]]


def test_boxes_are_those_of_a_filter(client, points, tmp_path):
    boxes = list(boxes_of(points, 4))
    for source in sources_of_points(points, tmp_path):
        made = parts.make_points(source, tmp_path / "parts", client, rows=len(points) // 9)
        assert_boxes(made, points, boxes)
        assert_boxes(parts.PartPoints(tmp_path / "parts"), points, boxes)


def test_what_are_no_points_is_refused_by_the_workers(client, tmp_path):
    with pytest.raises(OverflowError, match="column 1 .* is 4294967296"):
        parts.make_points(dask.array.from_array(numpy.array([[1, 1 << 32]])), tmp_path, client)
    with pytest.raises(ValueError, match="2 to 4 coordinates"):
        parts.make_points(dask.array.from_array(numpy.array([[1], [2]])), tmp_path, client)
    for source in (dask.array.from_array(numpy.array([1, 2])), dask.delayed(1)):
        with pytest.raises(TypeError, match="columns of a Dask DataFrame"):
            parts.make_points(source, tmp_path, client)
    assert os.listdir(tmp_path) == []


def test_damaged_hints_and_missing_parts_of_points(client, points, tmp_path):
    asked = parts.make_points(points, tmp_path, client, rows=len(points) // 9)
    (tmp_path / "part-00001.hints").write_bytes(b"damaged!")
    (tmp_path / "part-00002.hints").unlink()
    with pytest.warns(parts.HintsWarning) as told:
        assert_boxes(asked, points, boxes_of(points, 4))
    told = [str(each.message) for each in told if each.category is parts.HintsWarning]
    assert len(told) == 2
    (tmp_path / "part-00004.keys").unlink()
    with pytest.raises(ValueError, match="part-00004.keys"):
        asked.box([0, 0, 0], [1 << 20] * 3)


@pytest.mark.parametrize(
    "module, name, is_after",
    [
        ("_point_source", "coded", False),
        ("_points", "opened", False),
        ("_points", "opened", True),
    ],
)
def test_a_worker_is_killed_over_points(client, points, tmp_path, module, name, is_after):
    marker = str(tmp_path / "killed")
    files = files_of(points, tmp_path)
    arm_all(client, f"kuldebiq.parts.{module}", name, marker, is_after)
    made = parts.make_points(files, tmp_path / "parts", client, rows=len(points) // 9)
    assert_boxes(made, points, boxes_of(points, 4))
    assert os.path.exists(marker)


# Memory.


def high_water():
    """In a worker: the most memory that it has had, in bytes."""
    with open("/proc/self/status") as file:
        return next(int(line.split()[1]) * 1024 for line in file if line.startswith("VmHWM"))


@pytest.mark.skipif(MEMORY is None, reason="memory of workers: KULDEBIQ_PARTS_MEMORY isn't set")
def test_a_worker_has_less_memory_than_the_list(files, row, tmp_path):
    limit = int(MEMORY)
    assert limit < 8 * len(row), "the list is to be longer than a worker's memory"
    with client_of(limit, tmp_path / "workers") as client:
        made = parts.make(files, tmp_path / "parts", client, rows=len(row) // 24)
        questions = questions_of(numpy.sort(row))
        assert (made.positions(questions) == numpy.sort(row).searchsorted(questions)).all()
        assert max(client.run(high_water).values()) < limit
