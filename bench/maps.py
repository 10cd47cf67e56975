"""Reads a map text and prints the same map with other names, for the benchmarks: maps.py < MAP.

Edges get new numbers, half of them are turned around, the vertices come in another order, and each begins at another
dart, all drawn from one seed. So a program that follows the map goes all over memory. See docs/BENCHMARKS.md.
"""

import random
import sys

SEED = 1


def main():
    draw = random.Random(SEED)
    first = sys.stdin.readline().split()
    edges, root = int(first[1]), int(first[2])
    numbers = list(range(edges))
    draw.shuffle(numbers)
    turned = [draw.getrandbits(1) for _ in range(edges)]

    def name(dart):
        return 2 * numbers[dart // 2] + (dart % 2 ^ turned[dart // 2])

    vertices = []
    for line in sys.stdin:
        words = line.split()
        if words[0] == "v":
            darts = [name(int(word)) for word in words[1:]]
            start = draw.randrange(len(darts))
            vertices.append(" ".join(str(dart) for dart in darts[start:] + darts[:start]))
    draw.shuffle(vertices)
    sys.stdout.write(f"map {edges} {name(root)}\n")
    sys.stdout.writelines(f"v {vertex}\n" for vertex in vertices)
    sys.stdout.write("end\n")


if __name__ == "__main__":
    main()
