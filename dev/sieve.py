#!/usr/bin/env python3
"""Writes the sieve of Eratosthenes up to 30 as updates of a map, and questions to what is left."""
LIMIT = 30
print("# The sieve of Eratosthenes: every number is put, each at itself, and multiples are taken out.")
for number in range(1, LIMIT + 1):
    print(f"put {number} {number}")
print("sweep 0 1")
for prime in (2, 3, 5):
    for multiple in range(prime * prime, LIMIT + 1, prime):
        print(f"del {multiple}")
print("count 0 30\nnext 24\nget 27\nget 29")
