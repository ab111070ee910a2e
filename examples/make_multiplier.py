#!/usr/bin/env python3
"""Writes the netlist of an array multiplier as a hypergraph file: make_multiplier.py BITS > FILE.

A cell is an input buffer, an AND gate or a full adder, and a net is a signal with the cell that
drives it and those that read it.
"""
import sys


def main() -> None:
    bits = int(sys.argv[1])
    cells: list[str] = []
    nets: dict[str, list[int]] = {}

    def cell(name: str, reads: list[str], drives: list[str]) -> None:
        cells.append(name)
        for signal in reads + drives:
            pins = nets.setdefault(signal, [])
            if len(cells) not in pins:
                pins.append(len(cells))

    for i in range(bits):
        cell(f"buffer a{i}", [], [f"a{i}"])
        cell(f"buffer b{i}", [], [f"b{i}"])
    for i in range(bits):
        for j in range(bits):
            cell(f"and {i} {j}", [f"a{i}", f"b{j}"], [f"p{i}.{j}"])
    row = [f"p0.{j}" for j in range(bits)]
    for i in range(1, bits):
        carry = None
        later = []
        for j in range(bits):
            reads = [f"p{i}.{j}"]
            if j + 1 < len(row):
                reads.append(row[j + 1])
            if carry:
                reads.append(carry)
            cell(f"adder {i} {j}", reads, [f"s{i}.{j}", f"c{i}.{j}"])
            later.append(f"s{i}.{j}")
            carry = f"c{i}.{j}"
        row = later + [carry]
    kept = [pins for pins in nets.values() if len(pins) > 1]
    print(f"% an array multiplier of {bits} bits: {len(cells)} cells, {len(kept)} nets")
    print(len(kept), len(cells))
    for pins in kept:
        print(*pins)


main()
