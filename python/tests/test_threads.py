"""Threads, objects that die in any order, and a forked child."""

import gc
import os
import random
import threading
import time
import weakref

import numpy
import pytest

from kuldebiq import Map, Points, SortedKeys


def run_in_threads(count, work):
    wrong = []

    def guarded(number):
        try:
            work(number)
        except BaseException as error:  # noqa: BLE001 (it is raised again below)
            wrong.append(error)

    threads = [threading.Thread(target=guarded, args=(number,)) for number in range(count)]
    for thread in threads:
        thread.start()
    for thread in threads:
        thread.join()
    if wrong:
        raise wrong[0]


def test_threads_ask_the_same_keys():
    row = numpy.arange(0, 90_000, 3, dtype=numpy.uint64)
    keys = SortedKeys(row)

    def ask(number):
        questions = numpy.random.default_rng(number).integers(0, 100_000, 20_000)
        assert (keys.positions(questions) == numpy.searchsorted(row, questions)).all()
        for question in questions[:2000].tolist():
            assert keys.position(question) == min((question + 2) // 3, 30_000)

    run_in_threads(4, ask)


def test_threads_ask_the_same_points():
    table = numpy.random.default_rng(1).integers(0, 100, (20_000, 2))
    points = Points(table)

    def ask(number):
        for low in numpy.random.default_rng(number).integers(0, 90, (100, 2)):
            inside = ((low <= table) & (table <= low + 9)).all(axis=1)
            assert (points.rows(low, low + 9) == numpy.flatnonzero(inside)).all()

    run_in_threads(4, ask)


def test_other_threads_go_on_during_a_long_call():
    keys = SortedKeys(numpy.arange(1_000_000, dtype=numpy.uint64))
    questions = numpy.random.default_rng(1).integers(0, 1_000_000, 3_000_000)
    asking = threading.Thread(target=keys.positions, args=(questions,))
    asking.start()
    naps = 0
    while asking.is_alive():
        time.sleep(0.001)
        naps += 1
    assert naps >= 5


def test_threads_write_the_same_map():
    made = Map(levels=1)

    def write(number):
        for key in range(number, 4000, 4):
            made[key] = number
            assert made[key] == number and made.setdefault(key, 9) == number
        assert all(value == key % 4 for key, value in made.range())

    run_in_threads(4, write)
    assert len(made) == 4000 and made.count(0, 1999) == 2000


def test_a_key_is_popped_once():
    made, popped, values = Map(range(3000), range(3000)), [], []
    run_in_threads(4, lambda _: popped.extend(made.pop_first() for _ in range(500)))
    assert sorted(popped) == [(key, key) for key in range(2000)]
    run_in_threads(4, lambda _: values.extend(made.pop(key, 0) for key in range(2000, 2500)))
    assert sum(values) == sum(range(2000, 2500)) and len(made) == 500


def test_objects_die_in_any_order():
    chance = random.Random(3)
    for _ in range(30):
        row = numpy.arange(1000, dtype=numpy.uint64)
        keys = SortedKeys(row)
        made, points = Map(keys, row), Points(numpy.column_stack((row, row)))
        living = [row, points, points.codes, points.order, keys, keys.hints, keys[3:9], made,
                  made.range(), iter(made.items()), made.keys(), iter(keys), reversed(keys),
                  numpy.asarray(keys)]
        next(living[8])
        del row, keys, made, points
        while living:
            living.pop(chance.randrange(len(living)))
            gc.collect(0)


def test_memory_is_given_back():
    dead = [weakref.ref(SortedKeys([1, 2])), weakref.ref(Map({1: 2}))]
    gc.collect()
    assert [ref() for ref in dead] == [None, None]


def test_an_object_that_was_refused_dies():
    for _ in range(100):
        with pytest.raises(ValueError):
            Map(levels=27)
        with pytest.raises(ValueError):
            SortedKeys([2, 1])
    gc.collect()


@pytest.mark.skipif(not hasattr(os, "fork"), reason="there is no fork")
def test_a_forked_child_has_its_own():
    keys, made = SortedKeys(range(0, 300, 3)), Map({1: 10})
    child = os.fork()
    if child == 0:
        made[2] = 20
        right = keys.position(100) == 34 and made == {1: 10, 2: 20}
        del keys, made
        gc.collect()
        os._exit(0 if right else 1)
    made[3] = 30
    assert os.waitstatus_to_exitcode(os.waitpid(child, 0)[1]) == 0
    assert made == {1: 10, 3: 30}
