#!/usr/bin/env python3
"""Writes the Gaussian primes x + yi with x and y below 100 as a point file: gaussian_primes.py FILE."""
import struct
import sys

SIDE = 100


def is_prime(n):
    return n > 1 and all(n % d for d in range(2, int(n**0.5) + 1))


def is_gaussian_prime(x, y):
    """On an axis a prime that is 3 modulo 4; off it a sum of two squares that is prime."""
    if x == 0 or y == 0:
        return is_prime(x + y) and (x + y) % 4 == 3
    return is_prime(x * x + y * y)


points = [(x, y) for x in range(SIDE) for y in range(SIDE) if is_gaussian_prime(x, y)]
with open(sys.argv[1], "wb") as file:
    file.write(struct.pack("<Q", len(points)))
    for point in points:
        file.write(struct.pack("<II", *point))
