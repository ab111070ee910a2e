#!/usr/bin/env python3
"""Writes a large hypergraph file whose cuts are small, as those of circuits are, unlike those of make_graph.py.

make_large.py copies COUNT FILE SEED: so many copies of an unweighted or weighted hypergraph beside each other, without
its weights. In one net of fifty a drawn pin goes to the same vertex of a drawn copy.
make_large.py grid SIDE: a cube of SIDE times SIDE times SIDE vertices, each with a net to its next one in each direction.
make_large.py stars FILE: of a graph as METIS reads it, without weights, for each vertex a net of it and its neighbours.
"""
import random
import sys


def copies(count, path, seed):
    """The nets of the copies, and how many vertices they have."""
    with open(path, encoding="ascii") as file:
        lines = [line for line in file.read().splitlines() if line.strip() and not line.startswith("%")]
    header = lines[0].split()
    nets, vertices = int(header[0]), int(header[1])
    skipped = 1 if header[2:] in (["1"], ["11"]) else 0
    pins = [[int(word) for word in line.split()[skipped:]] for line in lines[1 : nets + 1]]
    rng = random.Random(seed)
    all_nets = []
    for copy in range(count):
        for net in pins:
            moved = [pin + copy * vertices for pin in net]
            if rng.random() < 0.02:
                place = rng.randrange(len(net))
                moved[place] = net[place] + rng.randrange(count) * vertices
            all_nets.append(sorted(set(moved)))
    return all_nets, count * vertices


def grid(side):
    """The nets of the cube, and how many vertices it has."""
    all_nets = []
    for vertex in range(side**3):
        x, y, z = vertex // side**2, vertex // side % side, vertex % side
        net = [vertex + 1]
        net += [vertex + 1 + side**2] if x + 1 < side else []
        net += [vertex + 1 + side] if y + 1 < side else []
        net += [vertex + 2] if z + 1 < side else []
        if len(net) > 1:
            all_nets.append(net)
    return all_nets, side**3


def stars(path):
    """The nets of a vertex and its neighbours each, and how many vertices there are."""
    with open(path, encoding="ascii") as file:
        lines = [line for line in file.read().split("\n") if not line.startswith("%")]
    vertices = int(lines[0].split()[0])
    all_nets = [sorted({vertex, *map(int, lines[vertex].split())}) for vertex in range(1, vertices + 1)]
    return all_nets, vertices


def main():
    words = sys.argv[1:]
    if words[:1] == ["copies"] and len(words) == 4:
        nets, vertices = copies(int(words[1]), words[2], int(words[3]))
    elif words[:1] == ["grid"] and len(words) == 2:
        nets, vertices = grid(int(words[1]))
    elif words[:1] == ["stars"] and len(words) == 2:
        nets, vertices = stars(words[1])
    else:
        sys.exit(__doc__)
    print(len(nets), vertices)
    for net in nets:
        print(*net)


main()
