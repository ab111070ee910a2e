#!/usr/bin/env python3
"""Runs hgpart with each of its allocations refused in turn.

refused.py HGPART [most=N] [CC=NAME]

For each run `refuse.c`, which is compiled and loaded before the program, refuses one call for memory, and in
a second series that and all that follow. A run must then say `no memory` with the status 8, and make
no file and write nothing; or it is done all the same, with a partition that `evaluate` finds to fit, at the
cost that was reported. Where a run makes more than `most` calls, so many of them are refused, evenly spread.
The status is 1 where a run ends otherwise.
"""
import collections
import os
import subprocess
import sys
import tempfile

FIRST = "4 7 1\n2 1 2\n3 1 7 5 6\n8 5 6 4\n7 2 3 4\n"
BLOCKS = "0\n0\n0\n1\n1\n1\n0\n"
# More than 65,536 bytes, which threads read.
LONG = "6000 3000\n" + "".join(f"{i % 3000 + 1} {7 * i % 3000 + 1} {i // 3 + 1}\n" for i in range(6000))

# What a run is asked, with its hypergraph, and its partition or fix file.
RUNS = [
    ("partition graph 4 0", "1 2\n1 2\n", ""),
    ("partition graph 2 0.334", "0 5\n", ""),
    ("partition graph 2 0.334", "5 6\n1 2\n2 3\n3 4\n4 5\n5 6\n", ""),
    ("partition graph 2 0.334 workers=1", "5 6\n1 2\n2 3\n3 4\n4 5\n5 6\n", ""),
    ("partition graph 2 0", FIRST, ""),
    ("partition graph 2 0 fix=extra", FIRST, "0\n-1\n-1\n-1\n-1\n-1\n-1\n"),
    ("partition graph 2 0.5", "3 4 1\n1 1 2\n5 2 3\n1 3 4\n", ""),
    ("evaluate graph extra 2 0", FIRST, BLOCKS),
    ("generate 30", "", ""),
    ("selfrun 30 2", "", ""),
    ("partition graph 4 0.03 workers=1", None, ""),
    ("partition graph 4 0.03 workers=4", None, ""),
    ("partition graph 4 0.03 workers=4", LONG, ""),
    ("partition graph 4 0.03 mode=det workers=1", None, ""),
    ("partition graph 4 0.03 cycles=2 workers=1", None, ""),
]


class Runner:
    """A program that is run in a folder, with a library loaded before it."""

    def __init__(self, program: str, library: str) -> None:
        self.program = program
        self.library = library

    def run(self, words: list[str], number: int, on: bool) -> tuple[int, str, str]:
        """The status and the texts of a run whose call of this number, and those behind it, are refused."""
        around = {"REFUSE": str(number), "REFUSED": "refused", "LD_PRELOAD": self.library}
        if on:
            around["REFUSE_ON"] = "1"
        for name in ("part", "refused"):
            if os.path.exists(name):
                os.remove(name)
        command = [self.program, *words]
        ran = subprocess.run(command, env=around, capture_output=True, text=True, timeout=120, check=False)
        return ran.returncode, ran.stdout, ran.stderr

    def is_sound(self, words: list[str], whole: str, report: str) -> bool:
        """Whether a run that is done wrote what it should."""
        if words[0] != "partition":
            return report == whole
        asked = [self.program, "evaluate", "graph", "part", *words[2:4]]
        told = subprocess.run(asked, capture_output=True, text=True, check=False).stdout.splitlines()
        costs = [line for line in report.splitlines() if line.startswith("cost ")]
        return "fits yes" in told and len(costs) == 1 and costs[0] in told

    def sweep(self, words: list[str], on: bool, most: int) -> tuple[int, collections.Counter]:
        """Refuses each call of a run in turn; answers about how many calls it makes, and how the runs ended."""
        _, whole, _ = self.run(words, 0, False)
        calls = self.count(words)
        ends = collections.Counter()
        for place in range(min(calls, most)):
            number = 1 + place * calls // min(calls, most)
            status, output, errors = self.run(words, number, on)
            if not os.path.exists("refused"):
                ends["not reached"] += 1
            elif (status, output, errors, os.path.exists("part")) == (8, "", "no memory\n", False):
                ends["no memory"] += 1
            elif (status, errors) == (0, "") and self.is_sound(words, whole, output):
                ends["done"] += 1
            else:
                ends["otherwise"] += 1
                print(f"call {number}{' and on' if on else ''} of {words}: status {status}, {output!r}, {errors!r}")
        return calls, ends

    def count(self, words: list[str]) -> int:
        """The greatest number of a call that a run was seen to reach."""
        low, high = 0, 1
        while self.reaches(words, high):
            low, high = high, 2 * high
        while high - low > 1:
            middle = (low + high) // 2
            if self.reaches(words, middle):
                low = middle
            else:
                high = middle
        return low

    def reaches(self, words: list[str], number: int) -> bool:
        """Whether a run makes a call of this number, where none is refused before."""
        self.run(words, number, False)
        return os.path.exists("refused")


def main() -> None:
    """Makes all runs."""
    program = os.path.realpath(sys.argv[1])
    own = {"most": "3000", "CC": "cc"}
    own.update(word.split("=", 1) for word in sys.argv[2:])
    source = os.path.join(os.path.dirname(os.path.realpath(__file__)), "refuse.c")
    total = collections.Counter()
    with tempfile.TemporaryDirectory() as folder:
        os.chdir(folder)
        library = f"{folder}/refuse.so"
        subprocess.run([own["CC"], "-O2", "-shared", "-fPIC", "-o", library, source], check=True)
        runner = Runner(program, library)
        made = subprocess.run([program, "generate", "300"], capture_output=True, text=True, check=True).stdout
        for text, graph, extra in RUNS:
            for name, content in [("graph", made if graph is None else graph), ("extra", extra)]:
                with open(name, "w", encoding="ascii") as file:
                    file.write(content)
            words = text.split()
            if words[0] == "partition":
                words.append("out=part")
            for on in (False, True):
                calls, ends = runner.sweep(words, on, int(own["most"]))
                total.update(ends)
                told = ", ".join(f"{count} {end}" for end, count in sorted(ends.items()))
                print(f"{text} ({calls} calls{', and all that follow' if on else ''}): {told}", flush=True)
        os.chdir("/")
    print(", ".join(f"{count} {end}" for end, count in sorted(total.items())))
    sys.exit(total["otherwise"] > 0)


if __name__ == "__main__":
    main()
