#!/usr/bin/env python3
"""Writes the primes below 100,000 as a key file: primes.py FILE."""
import struct
import sys

LIMIT = 100_000
sieve = bytearray([1]) * LIMIT
sieve[:2] = b"\0\0"
for factor in range(2, int(LIMIT**0.5) + 1):
    if sieve[factor]:
        sieve[factor * factor :: factor] = bytes(len(range(factor * factor, LIMIT, factor)))
primes = [number for number in range(LIMIT) if sieve[number]]
with open(sys.argv[1], "wb") as file:
    file.write(struct.pack(f"<Q{len(primes)}Q", len(primes), *primes))
