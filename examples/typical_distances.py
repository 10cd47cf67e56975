"""How far a face of a drawn quartic map is from the root's face, on the average over its darts, beside the fourth root of the
number of vertices, as a table; and as a plot in a picture where a file's name is given and matplotlib is there.

typical_distances.py [PICTURE.png]. Chassaing and Schaeffer's theorem says that the last column settles.
"""
import subprocess
import sys

SIZES = [100, 1_000, 10_000, 100_000]
SEEDS = range(1, 11)


def mean_distance(size, seed):
    """The mean over the darts of the distance of their faces from the root's face, in the map drawn from the seed."""
    words = ["./planarmap", "draw", "quartic", str(size), str(seed), "1"]
    record = subprocess.run(words, check=True, capture_output=True).stdout
    # The record's first line is its choices; what follows is a map file.
    map_file = record[record.index(b"\n") + 1:]
    text = subprocess.run(["./planarmap", "layers"], input=map_file, check=True, capture_output=True).stdout
    line = next(line for line in text.splitlines() if line.startswith(b"layers "))
    distances = [int(word) for word in line.split()[1:]]
    return sum(distances) / len(distances)


means = []
print("vertices  mean distance  / vertices^(1/4)")
for size in SIZES:
    mean = sum(mean_distance(size, seed) for seed in SEEDS) / len(SEEDS)
    means.append(mean)
    print(f"{size:8} {mean:14.2f} {mean / size ** 0.25:17.3f}", flush=True)
if len(sys.argv) > 1:
    import matplotlib.pyplot as plot

    plot.loglog(SIZES, means, "o-", label="mean distance")
    plot.loglog(SIZES, [means[-1] * (size / SIZES[-1]) ** 0.25 for size in SIZES], "--", label="slope 1/4")
    plot.xlabel("vertices")
    plot.legend()
    plot.savefig(sys.argv[1])
