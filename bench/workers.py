#!/usr/bin/env python3
"""workers.py [--pass KIND] PROGRAM GRAPH K [REPEATS]: how much faster four workers are than one, and what the machine allows.

In each turn the program partitions GRAPH with one worker, with four, and four times at once with one worker each. Four
runs at once that take as long as one say that the machine has four processors; where they share what one run has alone,
as two threads of a core do, or guests of a server, they take longer, and no four threads can be four times as fast as
one. `allowed` is four times the seconds of one run over those of four runs at once. The seconds that the host took of
all processors are told where they are a hundredth of the time and more.

Before, between and after the run with one worker and that with four, the same sum is made by one process alone and by
four at once. A turn is quiet where four took at most 1.12 times as long as one each time, and even where the four runs
at once did: then one run had no faster processor than they. The medians of the quiet and of the even turns are told
beside that of all.

With `--pass KIND` PROGRAM is `bench_pass`, and what is compared are passes of that kind, as it tells their times.
"""
import os
import statistics
import subprocess
import sys
import tempfile
import time

QUIET = 1.12
STEPS = 1_500_000


def stolen():
    """The seconds that the host took of all processors so far."""
    with open("/proc/stat", encoding="ascii") as file:
        return int(file.readline().split()[8]) / os.sysconf("SC_CLK_TCK")


def add_up():
    """Makes the sum, and answers the seconds that it took."""
    begin = time.monotonic()
    total = 0
    for i in range(STEPS):
        total += i
    return time.monotonic() - begin


def at_once(count):
    """The longest time of so many processes that make the sum at once."""
    ends = []
    for _ in range(count):
        reading, writing = os.pipe()
        if os.fork() == 0:
            os.write(writing, repr(add_up()).encode())
            os._exit(0)
        os.close(writing)
        ends.append(reading)
    times = []
    for reading in ends:
        with os.fdopen(reading) as file:
            times.append(float(file.read()))
        os.wait()
    return max(times)


def crowding():
    """How many times as long four processes at once take as one."""
    return at_once(4) / at_once(1)


def seconds(program, kind, graph, blocks, workers, runs, folder):
    """The time of so many runs at once."""
    begin = time.monotonic()
    started = []
    for i in range(runs):
        words = [program, "partition", graph, blocks, "0.03", f"out={folder}/part{i}", f"workers={workers}"]
        if kind:
            words = [program, graph, blocks, "30", kind, str(workers), "1"]
        started.append(subprocess.Popen(words, stdout=subprocess.PIPE, text=True))
    longest = 0.0
    for run in started:
        text = run.communicate()[0]
        if run.returncode != 0:
            sys.exit(f"{program}: status {run.returncode}")
        if kind:
            longest = max(longest, int(text.split()[0]) / 1e6)
    return longest if kind else time.monotonic() - begin


def main():
    words = sys.argv[1:]
    kind = None
    if len(words) > 1 and words[0] == "--pass":
        kind, words = words[1], words[2:]
    if len(words) not in (3, 4):
        sys.exit(__doc__)
    program, graph, blocks = words[:3]
    repeats = int(words[3]) if len(words) == 4 else 3
    quotients, quiet, even, allowed = [], [], [], []
    with tempfile.TemporaryDirectory() as folder:
        for _ in range(repeats):
            begin, before = time.monotonic(), stolen()
            crowds = [crowding()]
            one = seconds(program, kind, graph, blocks, 1, 1, folder)
            crowds.append(crowding())
            four = seconds(program, kind, graph, blocks, 4, 1, folder)
            crowds.append(crowding())
            together = seconds(program, kind, graph, blocks, 1, 4, folder)
            quotients.append(one / four)
            allowed.append(4 * one / together)
            note = ""
            if max(crowds) <= QUIET:
                quiet.append(one / four)
                note = ", quiet"
            if together <= QUIET * one:
                even.append(one / four)
                note += ", even"
            took = stolen() - before
            note += f", the host took {took:.1f} s" if took > 0.01 * (time.monotonic() - begin) else ""
            print(
                f"one {one:.3f} s, four {four:.3f} s: {one / four:.2f} times as fast; "
                f"four runs at once {together:.3f} s: allowed {4 * one / together:.2f}; sums "
                + ", ".join(f"{crowd:.2f}" for crowd in crowds)
                + note,
                flush=True,
            )
    print(f"median: {statistics.median(quotients):.2f} times as fast, allowed {statistics.median(allowed):.2f}")
    for name, found in (("quiet", quiet), ("even", even)):
        if found:
            print(f"median of {len(found)} {name} turns: {statistics.median(found):.2f} times as fast")


if __name__ == "__main__":
    main()
