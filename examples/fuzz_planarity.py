"""Tests somebody's planarity test, that of networkx, by drawn maps: fuzz_planarity.py [SEED [MAPS]].

Each drawn map is planar, so the test must say so and give an embedding that keeps Euler's formula. With K5 or K3,3 put on
five or six vertices of it that are all joined by new paths, it is not planar any more, and the test must say that too.
"""
import itertools
import subprocess
import sys

import networkx

from into_networkx import graph_of

seed = int(sys.argv[1]) if len(sys.argv) > 1 else 1
maps = int(sys.argv[2]) if len(sys.argv) > 2 else 200
SIZES = [5, 20, 80, 300]


def draw(size, count):
    """So many maps of this number of edges."""
    words = ["./planarmap", "draw", "general", str(size), str(seed), str(count)]
    for record in subprocess.run(words, check=True, capture_output=True, text=True).stdout.split("choices ")[1:]:
        yield networkx.Graph(graph_of(record))


def faces(embedding):
    """How many faces an embedding has."""
    met = set()
    return sum(1 for half in embedding.edges() if half not in met and embedding.traverse_face(*half, mark_half_edges=met))


def subdivided(graph, pairs):
    """The graph with a new path of two edges for each of these pairs of its vertices."""
    more = graph.copy()
    for one, other in pairs:
        networkx.add_path(more, [one, (one, other), other])
    return more


wrong = tried = 0
for size in SIZES:
    for graph in draw(size, maps):
        graph.remove_edges_from(list(networkx.selfloop_edges(graph)))
        planar, embedding = networkx.check_planarity(graph)
        edges = graph.number_of_edges()
        euler = planar and (edges == 0 or graph.number_of_nodes() - edges + faces(embedding) == 2)
        bad = []
        if graph.number_of_nodes() >= 6:
            some = list(graph)[:6]
            bad.append(subdivided(graph, itertools.combinations(some[:5], 2)))
            bad.append(subdivided(graph, itertools.product(some[:3], some[3:])))
        refused = not any(networkx.check_planarity(each)[0] for each in bad)
        tried += 1 + len(bad)
        wrong += not (euler and refused)
print(f"{tried} graphs tried, {wrong} maps told wrong")
sys.exit(wrong > 0)
