"""The degree of the root's vertex in 10,000 drawn maps with 30 edges, beside the exact law, as a table and a plot in text.

root_degrees.py [EDGES [TENS]] draws TENS times 1,000 maps. The law is Tutte's recursion: the rooted maps with n edges and a
root of degree k are, when the root's edge is taken away, two maps, or one whose root has degree k - 1 or more.
"""
import collections
import subprocess
import sys

edges = int(sys.argv[1]) if len(sys.argv) > 1 else 30
tens = int(sys.argv[2]) if len(sys.argv) > 2 else 10


def numbers(most):
    """maps[n][k]: how many rooted maps have n edges and a root of degree k."""
    maps = [[1]]
    for n in range(1, most + 1):
        row = [0] * (2 * n + 1)
        for k in range(1, 2 * n + 1):
            row[k] = sum(maps[n - 1][k - 1:])
            for i in range(n):
                one, other = maps[i], maps[n - 1 - i]
                row[k] += sum(one[j] * other[k - 2 - j] for j in range(max(0, k - 1 - len(other)), min(k - 1, len(one))))
        maps.append(row)
    return maps


def degrees(seed):
    """The degrees of the roots of 1,000 drawn maps. The root is dart 0, and its vertex the first of a canonical map."""
    words = ["./planarmap", "draw", "general", str(edges), str(seed), "1000"]
    lines = subprocess.run(words, check=True, capture_output=True, text=True).stdout.splitlines()
    return [len(after.split()) - 1 for line, after in zip(lines, lines[1:]) if line.startswith("map ")]


drawn = collections.Counter(degree for seed in range(1, tens + 1) for degree in degrees(seed))
law = numbers(edges)[edges]
total = sum(drawn.values())
square, cells = 0.0, 0
print("degree   drawn  expected")
for degree, number in enumerate(law):
    expected = total * number / sum(law)
    if expected >= 5:
        square += (drawn[degree] - expected) ** 2 / expected
        cells += 1
        print(f"{degree:6} {drawn[degree]:7} {expected:9.1f} " + "#" * round(200 * drawn[degree] / total))
print(f"chi-square {square:.1f} over {cells} degrees")
# Far from the law, which chance alone would do once in millions of runs.
sys.exit(square > cells + 5 * (2 * cells) ** 0.5)
