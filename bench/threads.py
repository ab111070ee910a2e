#!/usr/bin/env python3
"""threads.py [RUNS] PROGRAM WORDS..: where a program waits for its threads, and where one thread works alone.

`threads.c` is compiled and loaded before the program, which is run RUNS times (5); what is told is of the run that took
least. The names of functions need a program with symbols and frame pointers, as a translation has that is built with
`RUSTFLAGS="-C force-frame-pointers=yes"`. Told are, in milliseconds:

- how long no thread but the first one was there, and so many beside it
- how late threads began that were put on their creator's processor, and others
- the times in which the first thread was alone, by the parts before and behind them
- for each part that starts threads, how many, how many of them ran less than 0.1 ms, what their starts took, how
  late they began, how long they ran, and how long they were waited for
"""
import collections
import os
import re
import subprocess
import sys
import tempfile
from typing import NamedTuple

# Functions of these crates tell nothing of the part that starts a thread.
PLUMBING = re.compile(r"(std|core|alloc|rstd|crew|__libc|pthread|start_thread|clone)")


class Thread(NamedTuple):
    """A thread of a run: its times, the processors of its creator and of itself, and where it was started."""

    asked: float
    done: float
    begun: float
    ended: float
    awaited: float
    joined: float
    creator: int
    processor: int
    places: list[str]


def read(path):
    """The time of a run and its threads."""
    with open(path, encoding="utf-8") as file:
        total = float(file.readline())
        threads = []
        for line in file:
            words = line.split()
            threads.append(Thread(*map(float, words[:6]), int(words[6]), int(words[7]), words[8:]))
    return total, sorted(threads)


def least_run(library, command, runs, folder):
    """The time and the threads of the fastest of some runs."""
    best = None
    for i in range(runs):
        path = f"{folder}/notes{i}"
        around = {**os.environ, "LD_PRELOAD": library, "THREADS": path}
        subprocess.run(command, env=around, stdout=subprocess.DEVNULL, check=True)
        found = read(path)
        if best is None or found[0] < best[0]:
            best = found
    return best


def functions(places):
    """The functions around each place, with those that were put into others."""
    addresses = collections.defaultdict(list)
    for place in places:
        file, address = place.rsplit("+", 1)
        addresses[file].append((place, hex(int(address, 16) - 1)))
    names = {}
    for file, some in addresses.items():
        asked = ["addr2line", "-a", "-f", "-C", "-i", "-e", file, *(address for _, address in some)]
        told = subprocess.run(asked, capture_output=True, text=True, check=True).stdout
        for (place, _), text in zip(some, re.split(r"^0x[0-9a-f]+\n", told, flags=re.MULTILINE)[1:], strict=True):
            names[place] = text.splitlines()[::2]
    return names


def part(thread, names):
    """The innermost two functions of the program from which a thread was started."""
    found = []
    for place in thread.places:
        for name in names[place]:
            while "<" in name and name != re.sub(r"<[^<>]*>", "", name):
                name = re.sub(r"<[^<>]*>", "", name)
            name = name.replace("::{{closure}}", "").strip(":")
            if name in ("new", "new::thread_start", "run", "call_once", "??") or PLUMBING.match(name) or name in found:
                continue
            found.append(name)
    return " < ".join(found[:2])


def tell_counts(total, threads):
    """How long so many threads were there beside the first one."""
    steps = sorted([(thread.begun, 1) for thread in threads] + [(thread.ended, -1) for thread in threads])
    there, since, times = 0, 0.0, collections.Counter()
    for at, change in steps + [(total, 0)]:
        times[there] += at - since
        since, there = at, there + change
    print(f"{total:.0f} ms, {len(threads)} threads")
    print("threads beside the first one: " + ", ".join(f"{n}: {times[n]:.0f} ms" for n in sorted(times)))


def tell_late(threads):
    """How late threads began."""
    for text, same in (("their creator's processor", True), ("another processor", False)):
        late = sorted(max(0.0, t.begun - t.done) for t in threads if (t.creator == t.processor) == same)
        if late:
            print(
                f"{len(late)} begun on {text}: {sum(late):.1f} ms late, {late[len(late) // 2]:.2f} in the median, "
                f"{late[-1]:.1f} at most"
            )


def tell_alone(total, threads, parts):
    """The times between threads, by the parts before and behind them."""
    alone = collections.defaultdict(list)
    end, before = 0.0, "the start"
    for thread, name in [*zip(threads, parts), (None, "the end")]:
        begin = thread.asked if thread else total
        if begin > end:
            alone[(before, name)].append(begin - end)
        if thread and thread.ended > end:
            end, before = thread.ended, name
    print(f"alone {sum(map(sum, alone.values())):.0f} ms")
    for (before, behind), times in sorted(alone.items(), key=lambda item: -sum(item[1]))[:30]:
        print(f"{sum(times):8.2f} in {len(times):3}  after {before}  before {behind}")


def tell_parts(threads, parts):
    """What each part's threads took."""
    found = collections.defaultdict(list)
    for thread, name in zip(threads, parts):
        found[name].append(thread)
    print(f"{'count':>6} {'short':>6} {'starts':>8} {'late':>8} {'ran':>8} {'awaited':>8}")
    for name, some in sorted(found.items(), key=lambda item: -len(item[1])):
        print(
            f"{len(some):6} {sum(t.ended - t.begun < 0.1 for t in some):6} {sum(t.done - t.asked for t in some):8.2f} "
            f"{sum(max(0.0, t.begun - t.done) for t in some):8.2f} {sum(t.ended - t.begun for t in some):8.2f} "
            f"{sum(t.joined - t.awaited for t in some):8.2f}  {name}"
        )


def main():
    words = sys.argv[1:]
    runs = int(words.pop(0)) if words and words[0].isdigit() else 5
    if not words or runs == 0:
        sys.exit(__doc__)
    with tempfile.TemporaryDirectory() as folder:
        library = f"{folder}/threads.so"
        source = os.path.join(os.path.dirname(os.path.abspath(__file__)), "threads.c")
        compiler = [os.environ.get("CC", "cc"), "-O1", "-fno-omit-frame-pointer", "-shared", "-fPIC"]
        subprocess.run([*compiler, "-o", library, source, "-ldl"], check=True)
        total, threads = least_run(library, words, runs, folder)
        names = functions({place for thread in threads for place in thread.places})
    parts = [part(thread, names) for thread in threads]
    tell_counts(total, threads)
    tell_late(threads)
    tell_alone(total, threads, parts)
    tell_parts(threads, parts)


if __name__ == "__main__":
    main()
