#!/usr/bin/env python3
"""Writes a point file, or a script of centres for one (docs/formats.md).

points.py points N DIMS uniform|clustered SEED FILE
    N points: uniform over the range of a coordinate, or in N / 1000 clusters (1 to 4096) of very
    different sizes and widths.
points.py centres N DIMS K SEED POINTS FILE
    N lines `near` for K points each: half of the centres are points of the file POINTS, and half
    anywhere within a distance of one that is a power of two, from 1 to a sixteenth of the range.
"""
import array, random, struct, sys


def bits(dims):
    """How many bits a coordinate has."""
    return {2: 32, 3: 21, 4: 16}[dims]


def clipped(value, dims):
    return min(max(value, 0), 2 ** bits(dims) - 1)


def uniform(count, dims):
    return [random.getrandbits(bits(dims)) for _ in range(count * dims)]


def clustered(count, dims):
    """Weights fall as one over the cluster's number, and widths are of all magnitudes."""
    clusters = min(max(count // 1000, 1), 4096)
    middles = [[random.getrandbits(bits(dims)) for _ in range(dims)] for _ in range(clusters)]
    widths = [2 ** random.uniform(bits(dims) / 4, bits(dims) - 6) for _ in range(clusters)]
    weights = [1 / (1 + number) for number in range(clusters)]
    coords = []
    for number in random.choices(range(clusters), weights, k=count):
        for middle in middles[number]:
            coords.append(clipped(round(random.gauss(middle, widths[number])), dims))
    return coords


def write_points(count, dims, kind, seed, name):
    random.seed(int(seed))
    coords = {"uniform": uniform, "clustered": clustered}[kind](int(count), int(dims))
    with open(name, "wb") as out:
        out.write(struct.pack("<Q", int(count)))
        out.write(array.array("I", coords).tobytes())


def write_centres(count, dims, k, seed, points, name):
    random.seed(int(seed))
    dims = int(dims)
    with open(points, "rb") as read:
        many = struct.unpack("<Q", read.read(8))[0]
        coords = array.array("I")
        coords.fromfile(read, many * dims)
    with open(name, "w") as out:
        for number in range(int(count)):
            at = random.randrange(many) * dims
            centre = coords[at : at + dims]
            if number % 2 == 1:
                reach = 2 ** random.randint(0, bits(dims) - 4)
                centre = [clipped(c + random.randint(-reach, reach), dims) for c in centre]
            print("near", *centre, k, file=out)


if len(sys.argv) == 7 and sys.argv[1] == "points":
    write_points(*sys.argv[2:])
elif len(sys.argv) == 8 and sys.argv[1] == "centres":
    write_centres(*sys.argv[2:])
else:
    sys.exit(__doc__)
