#!/usr/bin/env python3
"""Writes a random hypergraph file: make_graph.py VERTICES NETS PINS SEED [weighted] > FILE.

Net sizes are drawn around PINS / NETS; pins lie near each other, as in a netlist, but for every
eighth, which is drawn from all vertices. With `weighted`, nets and vertices get weights.
"""
import random
import sys


def main() -> None:
    vertices, nets, pins, seed = map(int, sys.argv[1:5])
    weighted = sys.argv[5:] == ["weighted"]
    rng = random.Random(seed)
    out = sys.stdout
    out.write(f"{nets} {vertices}{' 11' if weighted else ''}\n")
    left = pins
    lines = []
    for net in range(nets):
        mean = left / (nets - net)
        size = max(1, min(64, left - (nets - net - 1), int(rng.expovariate(1 / mean) + 0.5)))
        left -= size
        centre = rng.randrange(vertices)
        fields = [str(rng.randrange(1, 100))] if weighted else []
        for place in range(size):
            pin = rng.randrange(vertices) if place % 8 == 7 else (centre + rng.randrange(-32, 33)) % vertices
            fields.append(str(pin + 1))
        lines.append(" ".join(fields))
        if len(lines) == 10000:
            out.write("\n".join(lines) + "\n")
            lines = []
    if weighted:
        lines += [str(rng.randrange(1, 50)) for _ in range(vertices)]
    if lines:
        out.write("\n".join(lines) + "\n")


main()
