#!/usr/bin/env python3
"""How many keys are below each question, by one call of numpy.searchsorted for all of them:
searchsorted.py KEYS QUESTIONS ROUNDS. Both files are a count and numbers of 64 bits; as `lookups`
does, it leaves out the questions behind the last sixteen, and prints a line. `together` is the
least nanoseconds of a question; the call has no way to ask one at a time."""
import sys
import time

import numpy


def main():
    if len(sys.argv) != 4:
        sys.exit(__doc__)
    keys, questions = (numpy.fromfile(name, "<u8")[1:] for name in sys.argv[1:3])
    questions = questions[:len(questions) // 16 * 16]
    least, rounds = float("inf"), int(sys.argv[3])
    for _ in range(rounds):
        start = time.perf_counter()
        places = numpy.searchsorted(keys, questions)
        least = min(least, time.perf_counter() - start)
    print(f"way searchsorted together {least * 1e9 / max(len(questions), 1):.0f} "
          f"checksum {int(places.sum())}")


main()
