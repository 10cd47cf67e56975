"""Reads a map text and prints how many vertices, edges and faces it has: read_map.py < FILE."""
import sys

lines = sys.stdin.read().splitlines()
edges, root = map(int, lines[0].split()[1:])
vertices = [[int(dart) for dart in line.split()[1:]] for line in lines if line.startswith("v ")]
after = {dart: vertex[place - len(vertex) + 1] for vertex in vertices for place, dart in enumerate(vertex)}
met, faces = set(), 0
for dart in after:
    faces += dart not in met
    while dart not in met:
        met.add(dart)
        dart = after[dart ^ 1]
# The map without edges has one vertex and one face, and no dart tells of them.
print(len(vertices) or 1, edges, faces or 1)
