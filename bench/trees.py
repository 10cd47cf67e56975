"""Prints a tree file for the benchmarks: trees.py deep NODES, or trees.py wide HUBS.

Both trees are blossoming and balanced, so that `close eulerian` answers a map. See docs/BENCHMARKS.md.
"""

import sys

HUB_BUDS = 31  # a hub has degree 64: 31 buds, 32 children, and the edge to its parent or the plant
HUB_CHILDREN = 32


def deep_word(nodes):
    """One node inside the other: `bll`, around it `b(` and `)l`, and so on. Each node has degree 4."""
    around = nodes - 1
    return "b(" * around + "bll" + ")l" * around


def wide_word(hubs):
    """A tree of hubs, filled level by level; where a hub has no hub for a child, the child is `bll`, of degree 4.

    Hub number k, from 0, has the children 32k + 1 to 32k + 32. The words of the hubs are made from the last to the
    first, so that those of the children are there.
    """
    words = [""] * hubs
    for hub in range(hubs - 1, -1, -1):
        first = HUB_CHILDREN * hub + 1
        children = words[first:first + HUB_CHILDREN]
        children += ["bll"] * (HUB_CHILDREN - len(children))
        words[hub] = "b" * HUB_BUDS + "".join("(" + child + ")" for child in children)
    return words[0]


def main():
    word = {"deep": deep_word, "wide": wide_word}[sys.argv[1]](int(sys.argv[2]))
    sys.stdout.write("tree " + word + "\n")


if __name__ == "__main__":
    main()
