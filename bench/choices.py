"""Prints a file of choices for the benchmarks: choices.py quartic NODES or choices.py eulerian PROFILE.

Each choice is drawn below its bound, from one seed. For quartic maps of n vertices, choice k of the growth, from k = 1, is
below 2(2k-1), then come n choices below 3 and one below 2. For a profile with e edges the bounds are e + 1 down to 1, then
C(2i-1, i) for each vertex of degree 2i in rising order of degree, and 2. See docs/BENCHMARKS.md.
"""

import math
import random
import sys

SEED = 1


def quartic_bounds(nodes):
    """The bounds of quartic maps with so many vertices, in order."""
    yield from (2 * (2 * k - 1) for k in range(1, nodes + 1))
    yield from (3 for _ in range(nodes))
    yield 2


def eulerian_bounds(profile):
    """The bounds of maps with these degrees, pairs D:C joined by commas, in order."""
    pairs = [tuple(map(int, pair.split(":"))) for pair in profile.split(",")]
    edges = sum(degree * count for degree, count in pairs) // 2
    yield from range(edges + 1, 0, -1)
    for degree, count in pairs:
        patterns = math.comb(degree - 1, degree // 2)
        yield from (patterns for _ in range(count))
    yield 2


def main():
    draw = random.Random(SEED)
    bounds = quartic_bounds(int(sys.argv[2])) if sys.argv[1] == "quartic" else eulerian_bounds(sys.argv[2])
    sys.stdout.write("choices")
    sys.stdout.writelines(f" {draw.randrange(bound)}" for bound in bounds)
    sys.stdout.write("\n")


if __name__ == "__main__":
    main()
