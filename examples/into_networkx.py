"""Reads a map text into a networkx multigraph, an edge for each edge of the map, and prints what networkx tells of it:
into_networkx.py < FILE."""
import sys

import networkx


def graph_of(text):
    """The graph of a map text. A vertex is a number, in the order of the lines `v`; edge k has the key k."""
    graph, at = networkx.MultiGraph(), {}
    lines = text.splitlines()
    vertices = [line.split()[1:] for line in lines if line.startswith("v ")]
    # The map without edges has one vertex, and no line tells of it.
    graph.add_nodes_from(range(max(1, len(vertices))))
    for vertex, darts in enumerate(vertices):
        at.update((int(dart), vertex) for dart in darts)
    for edge in range(len(at) // 2):
        graph.add_edge(at[2 * edge], at[2 * edge + 1], key=edge)
    return graph


if __name__ == "__main__":
    drawn = graph_of(sys.stdin.read())
    degrees = [degree for _, degree in drawn.degree()]
    print(f"{drawn.number_of_nodes()} vertices, {drawn.number_of_edges()} edges, degrees {min(degrees)} to {max(degrees)}")
    print(f"connected {networkx.is_connected(drawn)}, planar {networkx.check_planarity(drawn)[0]}")
    print(f"{sum(1 for _ in networkx.bridges(networkx.Graph(drawn)))} bridges, if parallel edges count as one")
