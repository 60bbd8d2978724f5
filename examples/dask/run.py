"""A list longer than the memory of a worker, in parts: made, asked, and with workers killed.

    python3 examples/dask/run.py [--numbers N] [--files F] [--rows R] [--workers W] [--memory M]
                                 [--questions Q] [--folder FOLDER] [--compare]

The numbers are random ones in F files that this script writes under FOLDER, which it removes in the
end. It prints seconds, the most memory that the workers have had, and pages, and compares all
answers with those of numpy.searchsorted in the whole list, for which this process needs 9 bytes for
each number. --compare also times how Dask sorts the numbers and writes as many parts without hints.
It needs kuldebiq (../../python), dask.distributed and pandas.
"""

import argparse
import logging
import os
import shutil
import signal
import sys
import tempfile
import threading
import time
from pathlib import Path

import dask
import numpy
from distributed import Client, LocalCluster
from distributed.scheduler import KilledWorker

import kuldebiq
from kuldebiq import parts

MIB = 1 << 20
PAGE = os.sysconf("SC_PAGE_SIZE")
# So many bytes of disk a number takes at most: in its file, in old and new parts, and where Dask
# puts what a worker has no room for.
DISK = 40
# So many numbers are taken from the parts at once.
STEP = 1 << 24
# So many seconds a killed worker has to come back.
PATIENCE = 300


def words():
    parser = argparse.ArgumentParser(description=__doc__.split("\n")[0])
    parser.add_argument("--numbers", type=int, default=300_000_000)
    parser.add_argument("--files", type=int, default=24)
    parser.add_argument("--rows", type=int, default=0, help="0: as many parts as files")
    parser.add_argument("--workers", type=int, default=3)
    parser.add_argument("--memory", default="2GiB", help="of each worker")
    parser.add_argument("--questions", type=int, default=1_000_000)
    parser.add_argument("--folder", type=Path, default=None)
    parser.add_argument("--compare", action="store_true")
    return parser.parse_args()


def say(what, seconds=None, more=""):
    shown = "" if seconds is None else f"{seconds:8.2f} s"
    print(f"{what:44}{shown:>10}  {more}".rstrip(), flush=True)


def timed(call, *words, **named):
    start = time.monotonic()
    answer = call(*words, **named)
    return answer, time.monotonic() - start


def write_numbers(folder, files, numbers):
    """Files of random numbers, in no order."""
    paths = [folder / f"numbers-{number:02}.npy" for number in range(files)]
    for number, path in enumerate(paths):
        count = numbers * (number + 1) // files - numbers * number // files
        chance = numpy.random.default_rng(number)
        numpy.save(path, chance.integers(0, 1 << 64, count, dtype=numpy.uint64))
    return paths


# What the workers say of themselves.


def high_water():
    with open("/proc/self/status") as file:
        return next(int(line.split()[1]) << 10 for line in file if line.startswith("VmHWM"))


def mapped_pages():
    """Pages of parts that are mapped, and those of them that are in this process's memory."""
    pages = {"Size:": 0, "Rss:": 0}
    is_part = False
    with open("/proc/self/smaps") as file:
        for line in file:
            name, *rest = line.split()
            if not name.endswith(":"):
                is_part = line.rstrip().endswith(".keys")
            elif is_part and name in pages:
                pages[name] += (int(rest[0]) << 10) // PAGE
    return pages["Size:"], pages["Rss:"]


def of_all(client, call):
    return list(client.run(call, on_error="ignore").values())


def say_memory(client):
    peaks = " ".join(f"{peak / MIB:,.0f}" for peak in sorted(of_all(client, high_water)))
    say("  most memory of each worker", more=f"{peaks} MiB")


def kill_one(client):
    os.kill(min(client.run(os.getpid).values()), signal.SIGKILL)


def wait_for_all(client, workers):
    stop = time.monotonic() + PATIENCE
    while len(of_all(client, os.getpid)) < workers:
        if time.monotonic() > stop:
            sys.exit(f"a killed worker hasn't come back in {PATIENCE} s")
        time.sleep(0.1)


# The steps.


def kill_at_a_part(client, folder, before, is_over):
    """Kill a worker when a part is written that wasn't there before, or when all is made."""
    while not is_over.wait(0.05) and set(folder.glob("*.keys")) <= before:
        pass
    kill_one(client)


def make_and_kill(paths, folder, client, rows):
    """Parts are made once more, and a worker is killed when the first of them is written. That is
    the work of another thread: what stops this one, as Ctrl-C, stops the making."""
    is_over = threading.Event()
    words = client, folder, set(folder.glob("*.keys")), is_over
    killer = threading.Thread(target=kill_at_a_part, args=words, daemon=True)
    killer.start()
    try:
        return parts.make(paths, folder, client, rows=rows, progress=False)
    finally:
        is_over.set()
        killer.join()


def plain_frame(path):
    import pandas

    return pandas.DataFrame({"key": numpy.load(path)})


def write_plain(frame, path):
    row = frame.index.to_numpy()
    with open(path, "wb") as file:
        file.write(len(row).to_bytes(8, "little"))
        file.write(row.data)


def sort_plainly(paths, folder, client, count):
    """What Dask takes to sort the numbers and to write parts, with divisions that it finds."""
    from dask.dataframe import from_delayed

    folder.mkdir()
    frames = [dask.delayed(plain_frame)(path) for path in paths]
    frame = from_delayed(frames, meta={"key": "uint64"}).set_index("key", npartitions=count)
    tasks = [
        dask.delayed(write_plain)(part, folder / f"{number}")
        for number, part in enumerate(frame.to_delayed())
    ]
    client.gather(client.compute(tasks))
    shutil.rmtree(folder)


def stretches_of(asked):
    """The whole list, some numbers at once, each time with the place of the first."""
    for start in range(0, len(asked), STEP):
        yield start, asked.keys(start, start + STEP)


def whole_list(asked):
    whole = numpy.empty(len(asked), numpy.uint64)
    for start, row in stretches_of(asked):
        whole[start : start + len(row)] = row
    return whole


def ask(asked, questions, what, places):
    found, seconds = timed(asked.positions, questions)
    assert (found == places).all()
    say(what, seconds)


def run(given, folder, client):
    paths, seconds = timed(write_numbers, folder, given.files, given.numbers)
    size = f"{given.numbers >> 17:,} MiB"
    say(f"{given.numbers:,} numbers in {given.files} files", seconds, size)
    rows = given.rows or -(-given.numbers // given.files)
    there = folder / "parts"
    made, seconds = timed(parts.make, paths, there, client, rows=rows, progress=False)
    say("parts are made", seconds)
    print(f"  {made}")
    say_memory(client)
    hints = sum(path.stat().st_size for path in there.glob("*.hints"))
    say("  hints", more=f"{hints >> 10:,} KiB, {hints * 8 / given.numbers:.4f} bits a key")
    chance = numpy.random.default_rng(99)
    questions = chance.integers(0, 1 << 64, given.questions, dtype=numpy.uint64)
    whole = whole_list(parts.Parts(there))
    assert len(whole) == given.numbers and (whole[1:] >= whole[:-1]).all()
    places, seconds = timed(whole.searchsorted, questions)
    ask(made, questions, f"{given.questions:,} questions to the workers, first", places)
    ask(made, questions, "  again", places)
    mapped, present = map(sum, zip(*of_all(client, mapped_pages)))
    say("  pages of parts in the workers' memory", more=f"{present:,} of {mapped:,}")
    say_memory(client)
    ask(parts.Parts(there), questions, "  one process, by the same parts, first", places)
    say("  one process, numpy.searchsorted", seconds)
    kill_one(client)
    ask(made, questions, "a worker is killed, and they are asked", places)
    wait_for_all(client, given.workers)
    made, seconds = timed(make_and_kill, paths, there, client, rows)
    say("parts are made again, and a worker is killed", seconds)
    again = parts.Parts(there)
    assert len(again) == len(whole)
    assert all((row == whole[at : at + len(row)]).all() for at, row in stretches_of(again))
    ask(made, questions, "  questions", places)
    if given.compare:
        wait_for_all(client, given.workers)
        _, seconds = timed(parts.make, paths, there, client, rows=rows, progress=False)
        say("parts are made once more", seconds)
        what = "  Dask sorts and writes as many, no hints"
        try:
            _, seconds = timed(sort_plainly, paths, folder / "plain", client, given.files)
            say(what, seconds)
        except KilledWorker:
            say(what, more="its workers are killed, again and again: more --memory")


def main():
    given = words()
    if given.folder:
        given.folder.mkdir(parents=True, exist_ok=True)
    # A run that is stopped removes its files, too.
    for number in (signal.SIGINT, signal.SIGTERM, signal.SIGHUP):
        signal.signal(number, lambda *_: sys.exit("stopped"))
    folder = Path(tempfile.mkdtemp(prefix="kuldebiq-", dir=given.folder))
    print(f"kuldebiq {kuldebiq.__version__}, Dask {dask.__version__}: {given.workers} workers of"
          f" {given.memory}, one thread each", flush=True)
    # A worker that is killed twice, so long apart, would be given up.
    dask.config.set({"distributed.deploy.lost-worker-timeout": "1h"})
    try:
        free = shutil.disk_usage(folder).free
        if free < DISK * given.numbers:
            sys.exit(f"{folder} has {free >> 20:,} MiB, and {DISK * given.numbers >> 20:,} MiB are"
                     " needed: another --folder, or fewer --numbers")
        with LocalCluster(
            n_workers=given.workers,
            threads_per_worker=1,
            memory_limit=given.memory,
            host="127.0.0.1",
            dashboard_address="127.0.0.1:0",
            local_directory=str(folder / "spilled"),
            silence_logs=logging.CRITICAL,
        ) as cluster, Client(cluster) as client:
            run(given, folder, client)
    finally:
        shutil.rmtree(folder, ignore_errors=True)


if __name__ == "__main__":
    main()
