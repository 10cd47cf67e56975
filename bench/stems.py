"""Prints a tree file with a stem tree for the benchmarks: stems.py NODES.

The tree is drawn from one seed among those with so many nodes, and planted so that it is balanced: `close tri` answers a map.
See docs/BENCHMARKS.md.
"""

import random
import sys

SEED = 1


def good_start(steps):
    """Where to begin to read the steps, whose sum is -2, as a cycle, so that no sum but that of them all is below -1."""
    least, start, total = 0, 0, 0
    for place, step in enumerate(steps):
        total += step
        if total < least:
            least, start = total, place + 1
    return start


def drawn_contour(nodes):
    """The letters around a drawn stem tree, its plant first: a number for each side, the same for the two of an edge, and None
    for a stem. A one of a word of bits is the first side of an edge; a zero is a stem where the node has fewer than two, and
    else the other side of the edge above it."""
    bits = [True] * (nodes - 1) + [False] * (3 * nodes - 1)
    random.Random(SEED).shuffle(bits)
    start = good_start([3 if bit else -1 for bit in bits])
    contour, above, stems = [None], [], [1]
    for bit in (bits[start:] + bits[:start])[:-1]:
        if bit:
            above.append(len(contour))
            stems.append(0)
            contour.append(above[-1])
        elif stems[-1] < 2:
            stems[-1] += 1
            contour.append(None)
        else:
            stems.pop()
            contour.append(above.pop())
    return contour


def balanced(contour):
    """The same contour from a plant at which the tree is balanced: the stem behind that at which the contour ends where it is
    read backwards, with a side as 1 and a stem as -1, from a good start."""
    start = good_start([-1 if side is None else 1 for side in reversed(contour)])
    plant = (len(contour) - start + 1) % len(contour)
    return contour[plant:] + contour[:plant]


def word(contour):
    """The word of a contour: the plant isn't written."""
    seen = set()
    for side in contour[1:]:
        if side is None:
            yield "s"
        else:
            yield ")" if side in seen else "("
            seen.add(side)


def main():
    sys.stdout.write("tree " + "".join(word(balanced(drawn_contour(int(sys.argv[1]))))) + "\n")


if __name__ == "__main__":
    main()
