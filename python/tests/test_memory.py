"""Memory that isn't found is a MemoryError, and what was there stands."""

import subprocess
import sys

import pytest

LIMITED = """
import resource
import numpy
import kuldebiq

chance = numpy.random.default_rng(1)
row = numpy.sort(chance.integers(0, 1 << 64, 2_000_000, dtype=numpy.uint64))
keys, made = kuldebiq.SortedKeys(row), kuldebiq.Map({1: 2}, levels=3)
with open("/proc/self/statm") as file:
    used = int(file.read().split()[0]) * resource.getpagesize()
resource.setrlimit(resource.RLIMIT_AS, (used + (8 << 20), resource.RLIM_INFINITY))
for call in (lambda: kuldebiq.SortedKeys(row, epsilon=0), lambda: kuldebiq.segments(row),
             lambda: made.load(row, row), lambda: made.update(row, row)):
    try:
        call()
    except MemoryError as error:
        print(isinstance(error, kuldebiq.Refused))
assert made == {1: 2} and keys.position(int(row[77])) == 77
made[5] = 6
assert made == {1: 2, 5: 6}
"""


@pytest.mark.skipif(sys.platform != "linux", reason="the limit is Linux's")
def test_memory_that_isnt_found():
    done = subprocess.run([sys.executable, "-c", LIMITED], capture_output=True, text=True)
    assert done.returncode == 0, done.stderr
    told = done.stdout.split()
    assert len(told) == 4 and told[:2] == ["True", "True"]
