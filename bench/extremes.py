#!/usr/bin/env python3
"""Runs hgpart on extreme hypergraphs, at 1 and 64 workers and for the three objectives.

extremes.py HGPART [seconds=N] [folder=NAME] [halvings=N] [only=WORD]

Each run has its line: the status, the seconds by the clock, the peak memory and the cost. Where the input is
of moderate size the written partition is counted anew: its loads are within the limit, they and the cost
are those of the report, and fixed vertices are where they should be. `halvings` makes the large inputs
smaller by so many powers of two, and `only` takes the inputs whose names have the word. The status is 1
where a run ends otherwise than is expected, takes longer than `seconds`, or its partition is wrong.
"""
import collections
import os
import subprocess
import sys
import tempfile
import threading
import time
import typing

LARGEST = 2**32 - 1
MODERATE = 6_000_000

Lines = typing.Iterator[str]


class Case(typing.NamedTuple):
    """An input: its name, its file and its fix file, what is asked, and the status that is expected."""

    name: str
    lines: typing.Callable[[], Lines]
    k: int
    eps: str
    size: int
    status: int = 0
    fixes: typing.Callable[[], Lines] | None = None


def bare(vertices: int) -> Lines:
    """Vertices without nets."""
    yield f"0 {vertices}"


def one_net(vertices: int) -> Lines:
    """One net of all vertices."""
    yield f"1 {vertices}"
    yield " ".join(map(str, range(1, vertices + 1)))


def single_pins(nets: int, vertices: int) -> Lines:
    """Nets of one pin each."""
    yield f"{nets} {vertices}"
    for net in range(nets):
        yield str(net % vertices + 1)


def weightless(vertices: int, net_weight: int) -> Lines:
    """A ring of vertices that weigh nothing, with nets of this weight."""
    yield f"{vertices} {vertices} 11"
    for net in range(vertices):
        yield f"{net_weight} {net + 1} {(net + 1) % vertices + 1}"
    for _ in range(vertices):
        yield "0"


def giant(vertices: int) -> Lines:
    """A ring in which the vertex in the middle weighs more than all others together."""
    yield f"{vertices} {vertices} 10"
    for net in range(vertices):
        yield f"{net + 1} {(net + 1) % vertices + 1}"
    for v in range(vertices):
        yield str(vertices if v == vertices // 2 else 1)


def heavy(vertices: int) -> Lines:
    """As many nets as vertices, each of eight vertices in a row, and all weights as large as can be."""
    yield f"{vertices} {vertices} 11"
    names = [str(v % vertices + 1) for v in range(vertices + 8)]
    for net in range(vertices):
        yield f"{LARGEST} {' '.join(names[net : net + 8])}"
    for _ in range(vertices):
        yield str(LARGEST)


def path(vertices: int) -> Lines:
    """A path."""
    yield f"{vertices - 1} {vertices}"
    for v in range(1, vertices):
        yield f"{v} {v + 1}"


def star(vertices: int) -> Lines:
    """A first vertex that has a net with each other."""
    yield f"{vertices - 1} {vertices}"
    for v in range(2, vertices + 1):
        yield f"1 {v}"


def clique(vertices: int) -> Lines:
    """A net for each pair of vertices."""
    yield f"{vertices * (vertices - 1) // 2} {vertices}"
    for v in range(1, vertices + 1):
        for u in range(v + 1, vertices + 1):
            yield f"{v} {u}"


def halves(vertices: int) -> Lines:
    """Two rings of the same size, the even and the odd numbers."""
    yield f"{vertices} {vertices}"
    for v in range(vertices):
        yield f"{v + 1} {(v + 2) % vertices + 1}"


def striped(vertices: int, k: int) -> Lines:
    """A fix file with the blocks in turn."""
    for v in range(vertices):
        yield str(v % k)


def cases(halvings: int) -> list[Case]:
    """All inputs."""
    most = 2**22 >> halvings
    many = 2**20 >> halvings
    return [
        Case("no nets", lambda: bare(most), 16, "0", most),
        Case("one net of all", lambda: one_net(most), 8, "0.03", 2 * most),
        Case("nets of one pin", lambda: single_pins(most, 1000), 8, "0.03", most),
        Case("all weights 0", lambda: weightless(20_000, 0), 8, "0", 40_000),
        Case("vertices of weight 0", lambda: weightless(20_000, 1), 8, "0", 40_000),
        Case("a giant", lambda: giant(20_000), 2, "0", 40_000),
        Case("a giant without room", lambda: giant(20_000), 3, "0", 40_000, 5),
        Case("a vertex a block", lambda: clique(256), 256, "0", 70_000),
        Case("fewer vertices than blocks", lambda: clique(40), 256, "0", 1_000),
        Case("all fixed", lambda: path(20_000), 8, "0", 40_000, 0, lambda: striped(20_000, 8)),
        Case("all fixed to one", lambda: path(20_000), 8, "100", 40_000, 0, lambda: striped(20_000, 1)),
        Case("all fixed to one without room", lambda: path(20_000), 8, "0", 40_000, 5, lambda: striped(20_000, 1)),
        Case("largest weights", lambda: heavy(20_000), 8, "0.03", 160_000),
        Case("largest weights and counts", lambda: heavy(most), 8, "0.03", 9 * most),
        Case("a path", lambda: path(many), 32, "0.03", 2 * many),
        Case("a star", lambda: star(many), 32, "0.03", 2 * many),
        Case("a clique", lambda: clique(700), 8, "0", 500_000),
        Case("two halves", lambda: halves(many), 2, "0", 2 * many),
    ]


def write(name: str, lines: Lines) -> None:
    """Writes a file line by line."""
    with open(name, "w", encoding="ascii") as file:
        file.writelines(f"{line}\n" for line in lines)


def price(objective: str, blocks: int) -> int:
    """What a net of weight 1 in so many blocks pays."""
    if blocks <= 1:
        return 0
    return {"km1": blocks - 1, "cut": 1, "soed": blocks}[objective]


def counted(graph: str, part: list[int], objective: str, k: int) -> tuple[int, list[int]]:
    """The cost and the loads of a partition, counted from the file."""
    cost, loads = 0, [0] * k
    with open(graph, encoding="ascii") as file:
        nets, _, form = (file.readline() + " 0").split()[:3]
        for _ in range(int(nets)):
            pins = file.readline().split()
            weight = int(pins.pop(0)) if form in ("1", "11") else 1
            cost += weight * price(objective, len({part[int(pin) - 1] for pin in pins}))
        for block in part:
            loads[block] += int(file.readline()) if form in ("10", "11") else 1
    return cost, loads


def numbers(report: str) -> dict[str, int]:
    """The numbers of a report's lines of a label and a number, and those of its loads."""
    found = {}
    for line in report.splitlines():
        label, _, number = line.rpartition(" ")
        if number.isdigit() and not line.startswith("round"):
            found[label] = int(number)
    return found


def check(case: Case, objective: str, report: str) -> str:
    """What is wrong with the partition and the report of a run that is done, or nothing."""
    told = numbers(report)
    with open("part", encoding="ascii") as file:
        part = [int(line) for line in file]
    cost, loads = counted("graph", part, objective, case.k)
    if len(part) != told["vertices"] or max(loads) > told["limit"] or sum(loads) != told["weight"]:
        return f"{len(part)} blocks, loads {loads[:8]}"
    if cost != told["cost"] or cost > told["greedy"]:
        return f"cost {told['cost']} told, {cost} counted"
    if loads != [told[f"load {block}"] for block in range(case.k)]:
        return f"loads {loads[:8]} counted"
    if case.fixes and [str(block) for block in part] != list(case.fixes()):
        return "a fixed vertex is elsewhere"
    return ""


def run(program: str, case: Case, objective: str, workers: int, seconds: float) -> bool:
    """Makes one run, prints its line, and answers whether it is as expected."""
    command = [program, "partition", "graph", str(case.k), case.eps, f"cost={objective}"]
    command += [f"workers={workers}", "out=part"]
    if case.fixes:
        command.append("fix=fixes")
    if os.path.exists("part"):
        os.remove("part")
    begin = time.monotonic()
    with open("report", "w", encoding="ascii") as report, open("errors", "w", encoding="ascii") as errors:
        process = subprocess.Popen(command, stdout=report, stderr=errors)
        timer = threading.Timer(seconds, process.kill)
        timer.start()
        _, code, usage = os.wait4(process.pid, 0)
        timer.cancel()
        process.returncode = os.waitstatus_to_exitcode(code)
    took = time.monotonic() - begin
    with open("report", encoding="ascii") as file:
        text = file.read()
    fault = "" if process.returncode == case.status else f"status {case.status} is expected"
    if took >= seconds:
        fault = f"over {seconds:.0f} s"
    elif not fault and case.status != 0 and (text or os.path.exists("part")):
        fault = "something was written"
    elif not fault and case.status == 0 and case.size <= MODERATE:
        fault = check(case, objective, text)
    cost = numbers(text).get("cost", "")
    peak = f"{usage.ru_maxrss / 1000:.0f} MB"
    row = [case.name, case.k, objective, workers, process.returncode, f"{took:.2f} s", peak, cost]
    row.append(fault or "as expected")
    print("| " + " | ".join(map(str, row)) + " |", flush=True)
    return not fault


def main() -> None:
    """Runs all inputs."""
    own = {"seconds": "600", "folder": "", "halvings": "0", "only": ""}
    own.update(word.split("=", 1) for word in sys.argv[2:])
    program = os.path.realpath(sys.argv[1])
    ends = collections.Counter()
    print("| input | k | objective | workers | status | time | peak memory | cost | |")
    print("|---|---|---|---|---|---|---|---|---|")
    with tempfile.TemporaryDirectory(dir=own["folder"] or None) as folder:
        os.chdir(folder)
        for case in cases(int(own["halvings"])):
            if own["only"] not in case.name:
                continue
            write("graph", case.lines())
            if case.fixes:
                write("fixes", case.fixes())
            for objective in ("km1", "cut", "soed"):
                for workers in (1, 64):
                    ends[run(program, case, objective, workers, float(own["seconds"]))] += 1
        os.chdir("/")
    print(f"\n{ends[True]} runs as expected, {ends[False]} otherwise")
    sys.exit(ends[False] > 0)


if __name__ == "__main__":
    main()
