#!/usr/bin/env python3
"""Compares the cuts of hgpart with those of another program on a folder of hypergraphs.

quality.py HGPART OTHER FOLDER [workers=N] [seeds=N] [cycles=N] [OPTION=VALUE ..]

OTHER is run as `OTHER GRAPH K THOUSANDTHS SEED OPTION=VALUE ..` and prints `km1=N` and `time=SECONDS`
among its words. For each hypergraph and k = 2, 8, 32 the mean costs over the seeds stand beside each
other, then the mean seconds of the whole runs; the last line has the geometric means of the ratios.
"""
import math
import os
import re
import subprocess
import sys
import tempfile
import time


def ours(program: str, graph: str, k: int, seed: int, workers: str, cycles: str) -> tuple[int, float]:
    with tempfile.TemporaryDirectory() as folder:
        words = [program, "partition", graph, str(k), "0.03", f"seed={seed}", f"workers={workers}", f"out={folder}/part"]
        if cycles != "0":
            words.append(f"cycles={cycles}")
        begin = time.monotonic()
        report = subprocess.run(words, capture_output=True, text=True, check=True).stdout
        return int(re.search(r"^cost (\d+)$", report, re.M)[1]), time.monotonic() - begin


def theirs(program: str, graph: str, k: int, seed: int, options: list[str]) -> tuple[int, float]:
    begin = time.monotonic()
    line = subprocess.run([program, graph, str(k), "30", str(seed), *options], capture_output=True, text=True, check=True).stdout
    return int(re.search(r"km1[= ](\d+)", line)[1]), time.monotonic() - begin


def mean(values: list[float]) -> float:
    return sum(values) / len(values)


def geometric(values: list[float]) -> float:
    return math.exp(mean([math.log(value) for value in values]))


def main() -> None:
    program, other, folder, *words = sys.argv[1:]
    own = {"workers": "1", "seeds": "3", "cycles": "0"}
    options = []
    for word in words:
        key, value = word.split("=")
        if key in own:
            own[key] = value
        else:
            options.append(word)
    if own["cycles"] != "0":
        options.append(f"cycles={own['cycles']}")
    costs, times = [], []
    print("| hypergraph | k | cost | other | ratio | seconds | other |")
    print("|---|---|---|---|---|---|---|")
    for name in sorted(os.listdir(folder)):
        if not name.endswith(".hgr"):
            continue
        graph = os.path.join(folder, name)
        for k in (2, 8, 32):
            seeds = range(1, int(own["seeds"]) + 1)
            a = [ours(program, graph, k, seed, own["workers"], own["cycles"]) for seed in seeds]
            b = [theirs(other, graph, k, seed, options) for seed in seeds]
            cost, other_cost = mean([one[0] for one in a]), mean([one[0] for one in b])
            seconds, other_seconds = mean([one[1] for one in a]), mean([one[1] for one in b])
            costs.append(cost / other_cost)
            times.append(seconds / other_seconds)
            print(f"| {name[:-4]} | {k} | {cost:.0f} | {other_cost:.0f} | {costs[-1]:.3f} | {seconds:.2f} | {other_seconds:.2f} |", flush=True)
    print(f"\ncost {geometric(costs):.3f} times the other's in the geometric mean, time {geometric(times):.2f} times")


if __name__ == "__main__":
    main()
