#!/usr/bin/env python3
"""Checks what hgpart writes on random hypergraphs against a count of its own.

check_reports.py HGPART [runs=N] [from=N] [workers=N] [WORD ..]

Run number i makes a hypergraph of 50 to 2,000 vertices, and asks for 2 to 8 blocks with a tight limit, by
one of the three objectives and sometimes with a fix file. Further words, as cycles=2 or mode=det, are handed on.
The partition must obey the fixes and the limit, no single allowed move may make it cheaper, and each line
of the report must be what docs/FORMAT.md says: costs and loads are counted anew, rounds follow on each
other, and gains sum to what was saved. With mode=det one worker must write the same partition. At the first
fault the input is printed, and the status is 1.
"""
import collections
import random
import subprocess
import sys
import tempfile

FREE = -1


class Fault(Exception):
    """What is wrong with a run."""


def want(holds: bool, text: str) -> None:
    """Raises a fault with this text where it doesn't hold."""
    if not holds:
        raise Fault(text)


class Graph:
    """A hypergraph with the weights and pins of its nets, the weights of its vertices, and their fixes."""

    def __init__(self, rng: random.Random) -> None:
        self.vertices = rng.choice([rng.randrange(50, 200), rng.randrange(50, 2001)])
        count = rng.randrange(self.vertices // 2, 2 * self.vertices)
        heaviest = rng.choice([1, 1, 1, 3, 20, 2**32 - 1])
        self.net_weights = [rng.randrange(heaviest + 1) if heaviest > 1 else 1 for _ in range(count)]
        self.nets = [self.pins(rng) for _ in range(count)]
        heaviest = rng.choice([1, 1, 1, 2, 5, 30, 2**32 - 1])
        self.weights = [rng.randrange(1, heaviest + 1) for _ in range(self.vertices)]
        self.fixes = [FREE] * self.vertices
        self.nets_of = [[] for _ in range(self.vertices)]
        for e, pins in enumerate(self.nets):
            for v in pins:
                self.nets_of[v].append(e)

    def pins(self, rng: random.Random) -> list[int]:
        """The rising pins of a net, most of them near each other."""
        centre = rng.randrange(self.vertices)
        size = rng.choice([1, 2, 2, 2, 3, 3, 4, 5, 8, 30])
        near = [(centre + rng.randrange(-9, 10)) % self.vertices for _ in range(size)]
        return sorted({rng.randrange(self.vertices) if rng.random() < 0.1 else v for v in near})

    def text(self) -> str:
        """The file of the hypergraph, all weights given."""
        lines = [f"{len(self.nets)} {self.vertices} 11"]
        for weight, pins in zip(self.net_weights, self.nets):
            lines.append(" ".join(str(field) for field in [weight, *(v + 1 for v in pins)]))
        return "\n".join(lines + [str(weight) for weight in self.weights]) + "\n"


class Job:
    """What is asked of a run."""

    def __init__(self, rng: random.Random, graph: Graph, workers: int, words: list[str]) -> None:
        self.k = rng.randrange(2, 9)
        self.eps = rng.choice([0, 0, 1, 5, 10, 20, 30])
        self.seed = rng.choice([rng.randrange(100), rng.randrange(2**64)])
        self.workers = workers
        self.objective = rng.choice(["km1", "km1", "cut", "soed"])
        self.limit = (1000 + self.eps) * -(-sum(graph.weights) // self.k) // 1000
        self.is_deterministic = "mode=det" in words
        self.cycles = sum(int(word[7:]) for word in words if word.startswith("cycles="))
        if rng.random() < 0.3:
            share = rng.choice([0.02, 0.1, 0.4])
            graph.fixes = [rng.randrange(self.k) if rng.random() < share else FREE for _ in graph.weights]

    def price(self, blocks: int) -> int:
        """What a net of weight 1 in so many blocks pays."""
        if blocks <= 1:
            return 0
        return {"km1": blocks - 1, "cut": 1, "soed": blocks}[self.objective]


def cost_of(graph: Graph, job: Job, part: list[int]) -> int:
    """The cost of a partition, net by net."""
    return sum(weight * job.price(len({part[v] for v in pins})) for weight, pins in zip(graph.net_weights, graph.nets))


def loads_of(graph: Graph, job: Job, part: list[int]) -> list[int]:
    """The load of each block."""
    loads = [0] * job.k
    for v, block in enumerate(part):
        loads[block] += graph.weights[v]
    return loads


def least_loaded(graph: Graph, job: Job, order: list[int]) -> tuple[list[int], int | None]:
    """The fixed vertices in their blocks, then the free ones in this order each in the least loaded block;
    and the first vertex that takes its block past the limit."""
    part = list(graph.fixes)
    loads = [0] * job.k
    over = None
    for v in [v for v in range(graph.vertices) if part[v] != FREE] + [v for v in order if part[v] == FREE]:
        if part[v] == FREE:
            part[v] = loads.index(min(loads))
        loads[part[v]] += graph.weights[v]
        if over is None and loads[part[v]] > job.limit:
            over = v
    return part, over


def greedy(graph: Graph, job: Job) -> tuple[list[int], int | None]:
    """Placement by falling weight, and where it passes the limit."""
    return least_loaded(graph, job, sorted(range(graph.vertices), key=lambda v: (-graph.weights[v], v)))


def draws(seed: int, stream: int, count: int) -> list[int]:
    """The first numbers of the generator PCG-XSH-RR 64/32 with this state and stream."""
    mask = 2**64 - 1
    step = (stream << 1 | 1) & mask
    state = ((seed + step) * 6364136223846793005 + step) & mask
    numbers = []
    for _ in range(count):
        mixed = (state >> 18 ^ state) >> 27 & 0xFFFFFFFF
        turn = state >> 59
        numbers.append((mixed >> turn | mixed << (-turn & 31)) & 0xFFFFFFFF)
        state = (state * 6364136223846793005 + step) & mask
    return numbers


def cheapest_named(graph: Graph, job: Job) -> int:
    """The least cost of the nine named placements of the file that fit."""
    placements = [greedy(graph, job)]
    for stream in range(8):
        keys = draws(job.seed, stream, graph.vertices)
        placements.append(least_loaded(graph, job, sorted(range(graph.vertices), key=lambda v: (keys[v], v))))
    return min(cost_of(graph, job, part) for part, _ in placements if max(loads_of(graph, job, part)) <= job.limit)


def check_partition(graph: Graph, job: Job, text: str) -> list[int]:
    """Reads a written partition, which obeys the fixes and the limit, and which no allowed move makes cheaper."""
    part = [int(line) for line in text.splitlines()]
    want(text == "".join(f"{block}\n" for block in part), "the partition isn't one number a line")
    want(len(part) == graph.vertices, f"{len(part)} blocks for {graph.vertices} vertices")
    want(all(0 <= block < job.k for block in part), "a block is out of range")
    for v, fix in enumerate(graph.fixes):
        want(fix in (FREE, part[v]), f"vertex {v + 1} is in {part[v]} and fixed to {fix}")
    loads = loads_of(graph, job, part)
    want(max(loads) <= job.limit, f"loads {loads} above {job.limit}")
    counts = [collections.Counter(part[v] for v in pins) for pins in graph.nets]
    for v, home in enumerate(part):
        for to in range(job.k):
            if graph.fixes[v] != FREE or to == home or loads[to] + graph.weights[v] > job.limit:
                continue
            gain = 0
            for e in graph.nets_of[v]:
                blocks = len(counts[e])
                after = blocks - (counts[e][home] == 1) + (to not in counts[e])
                gain += graph.net_weights[e] * (job.price(blocks) - job.price(after))
            want(gain <= 0, f"a move of vertex {v + 1} from {home} to {to} saves {gain}")
    return part


class Report:
    """The lines of a report, read one after the other, and the cost that the rounds have reached."""

    def __init__(self, text: str) -> None:
        want(text.endswith("\n"), "the report doesn't end with a line feed")
        self.lines = text[:-1].split("\n")
        self.at = 0
        self.cost = 0

    def head(self) -> str:
        """The first word of the next line."""
        return self.lines[self.at].split(" ")[0] if self.at < len(self.lines) else ""

    def take(self) -> list[str]:
        """The words of the next line."""
        want(self.at < len(self.lines), "the report ends early")
        self.at += 1
        return self.lines[self.at - 1].split(" ")

    def number(self, label: str) -> int:
        """The number behind a label, which makes up the next line."""
        words = self.take()
        want(len(words) == 2 and words[0] == label, f"{' '.join(words)!r} stands for {label}")
        want(words[1] == str(int(words[1])), f"{words[1]} isn't plain")
        return int(words[1])

    def expect(self, label: str, value: int) -> None:
        """The next line is this label with this number."""
        told = self.number(label)
        want(told == value, f"{label} {told}, counted {value}")

    def round(self) -> "Round":
        """The next round, which begins with the cost reached, and makes it no dearer."""
        found = Round(self.take())
        want(found.before == self.cost, f"a round begins with {found.before}, reached was {self.cost}")
        want(found.after <= found.before, f"a round goes up from {found.before} to {found.after}")
        self.cost = found.after
        return found


class Round:
    """A round line, whose own numbers agree."""

    def __init__(self, words: list[str]) -> None:
        want(len(words) > 3 and words[0] == "round", f"{words} is no round")
        self.level = int(words[1])
        self.kind = words[2]
        if self.kind == "flow":
            shape = ["round", words[1], "flow", None, None]
            shape += [field for label in ("region", "value", "before", "after") for field in (label, None)]
        else:
            want(self.kind in ("label", "search", "sweep"), f"{self.kind} is no kind")
            shape = ["round", words[1], self.kind]
            shape += [field for label in ("moves", "kept", "before", "made", "after") for field in (label, None)]
            shape += ["gains"] + [None] * (len(words) - 14)
        want(len(words) == len(shape), f"{words} has another length")
        want(all(form in (None, word) for form, word in zip(shape, words)), f"{words} has another shape")
        numbers = [int(word) for form, word in zip(shape, words) if form is None]
        if self.kind == "flow":
            self.first, self.second, self.region, self.value, self.before, self.after = numbers
            want(min(numbers) >= 0 and self.first < self.second, f"{words}: the blocks don't rise")
            want(self.value <= self.after, f"{words}: value above the cost")
            want(self.region > 0 or self.before == self.after, f"{words}: saves without a region")
            return
        self.moves, self.kept, self.before, self.made, self.after, *self.gains = numbers
        want(min(numbers[:5]) >= 0 and self.gains != [], f"{words}: numbers are missing or negative")
        want(sum(self.gains) == self.before - self.made, f"{words}: the gains don't sum to what was saved")
        want(self.kept <= self.moves, f"{words}: keeps more than was moved")
        want(self.after <= self.made, f"{words}: all moves together are cheaper than what was kept")
        want(self.kept > 0 or self.after == self.before, f"{words}: saves without a move")
        want(self.kept == 0 or self.after < self.before, f"{words}: keeps moves that save nothing")
        want(self.kept < self.moves or self.after == self.made, f"{words}: keeps all and ends elsewhere")

    def is_swept(self) -> bool:
        """Whether it can be a sweep: moves that are all kept, with one gain."""
        return 0 < self.moves == self.kept and len(self.gains) == 1


def check_pass(job: Job, kind: str, rounds: list[Round]) -> None:
    """The rounds of one kind on one level follow on each other as the method lets them."""
    if kind == "label":
        want(sum(made.after < made.before for made in rounds) <= 8, "more than 8 rounds of a pass lower the cost")
        want(rounds[-1].after < rounds[-1].before, "a pass of label propagation ends with a round that saved nothing")
        lowered = True
        for made in rounds:
            shape = len(made.gains) == job.workers if lowered else made.is_swept()
            want(shape, f"a label round has {made.moves} moves and {len(made.gains)} gains")
            lowered = made.after < made.before
            if job.is_deterministic:
                want(lowered and not any(made.gains[1:]), "a synchronous round saves nothing, or has several gains")
    elif kind == "search":
        want(len(rounds) <= 4, "more than 4 rounds of searches")
        want(all(made.kept > 0 for made in rounds[:-1]), "a search follows on one that kept nothing")
        for made in rounds:
            want(made.moves > 0, "a search without a move")
            want(len(made.gains) == job.workers or len(made.gains) == made.moves == 1, "a search has other gains")
    else:
        pairs = [(made.first, made.second) for made in rounds]
        want(all(a < b for a, b in zip(pairs, pairs[1:])), f"the pairs {pairs} don't rise")
        want(all(b < job.k for _, b in pairs), f"a block of {pairs} is out of range")


def check_descent(job: Job, report: Report, start: int) -> None:
    """The rounds from the start level down, and then the sweeps' place."""
    kinds = ["label"] if job.is_deterministic else ["label", "search", "flow"]
    passes = {}
    last = (-start, 0)
    while report.head() == "round" and report.lines[report.at].split(" ")[2] != "sweep":
        made = report.round()
        want(made.kind in kinds and made.level <= start, f"a round of {made.kind} on level {made.level}")
        place = (-made.level, kinds.index(made.kind))
        want(last <= place, f"a round of {made.kind} on level {made.level} comes late")
        last = place
        passes.setdefault(place, []).append(made)
    for (_, kind), rounds in passes.items():
        check_pass(job, kinds[kind], rounds)


def check_sweeps(report: Report) -> None:
    """Sweeps on the file, each of which saves something."""
    while report.head() == "round":
        made = report.round()
        want(made.kind == "sweep" and made.level == 0, f"a round of {made.kind} among the sweeps")
        want(made.is_swept() and made.after < made.before, "a sweep saves nothing")


def check_levels(graph: Graph, job: Job, levels: int) -> None:
    """So many levels can be: each that was contracted had more than 32 vertices a block, and lost a twentieth."""
    most = graph.vertices
    for _ in range(levels - 1):
        want(most > 32 * job.k, f"{levels} levels of {graph.vertices} vertices")
        most = most * 19 // 20


def check_report(graph: Graph, job: Job, text: str, part: list[int]) -> None:
    """Reads a report line by line."""
    report = Report(text)
    cheapest = cost_of(graph, job, greedy(graph, job)[0])
    for label, value in [
        ("vertices", graph.vertices),
        ("nets", len(graph.nets)),
        ("weight", sum(graph.weights)),
        ("blocks", job.k),
        ("limit", job.limit),
        ("seed", job.seed),
        ("workers", job.workers),
    ]:
        report.expect(label, value)
    if job.objective != "km1":
        want(report.take() == ["objective", job.objective], "the objective is missing")
    report.expect("greedy", cheapest)
    levels = report.number("levels")
    check_levels(graph, job, levels)
    start = report.number("start")
    want(start < levels, f"level {start} of {levels}")
    report.cost = report.number("first")
    if start == 0:
        named = cheapest_named(graph, job)
        want(report.cost <= named, f"the first costs {report.cost}, a named placement {named}")
        want(not job.is_deterministic or report.cost == named, f"the first costs {report.cost}, not {named}")
    check_descent(job, report, start)
    chosen = report.take()
    want(chosen == ["chosen", "greedy" if cheapest < report.cost else "levels"], f"{chosen} at {report.cost}")
    report.cost = min(cheapest, report.cost)
    check_sweeps(report)
    for cycle in range(1, job.cycles + 1):
        words = report.take()
        want(words[:3] == ["cycle", str(cycle), "levels"] and len(words) == 8, f"{words} is no cycle {cycle}")
        levels, before, after = int(words[3]), int(words[5]), int(words[7])
        want((words[4], words[6]) == ("before", "after"), f"{words} has another shape")
        want(before == report.cost, f"cycle {cycle} begins with {before}, reached was {report.cost}")
        check_levels(graph, job, levels)
        check_descent(job, report, levels - 1)
        check_sweeps(report)
        want(after == report.cost, f"cycle {cycle} ends with {after}, reached was {report.cost}")
    counted = cost_of(graph, job, part)
    report.expect("cost", counted)
    want(counted == report.cost, f"cost {counted}, the rounds reached {report.cost}")
    want(counted <= cheapest, f"cost {counted}, greedy placement {cheapest}")
    for block, load in enumerate(loads_of(graph, job, part)):
        want(report.take() == ["load", str(block), str(load)], f"block {block} has load {load}")
    want(report.at == len(report.lines), "lines follow the loads")


def check_run(program: str, number: int, workers: int, words: list[str]) -> str:
    """Makes one run and checks it; answers how it ended."""
    rng = random.Random(number)
    graph = Graph(rng)
    job = Job(rng, graph, workers, words)
    fixes = "".join(f"{fix}\n" for fix in graph.fixes)
    with tempfile.TemporaryDirectory() as folder:
        for name, text in [("graph", graph.text()), ("fixes", fixes)]:
            with open(f"{folder}/{name}", "w", encoding="ascii") as file:
                file.write(text)
        command = [program, "partition", "graph", str(job.k), f"0.{job.eps:03}", f"seed={job.seed}"]
        command += [f"workers={workers}", f"cost={job.objective}", "out=part", *words]
        if graph.fixes.count(FREE) < graph.vertices:
            command.append("fix=fixes")
        ran = subprocess.run(command, capture_output=True, text=True, cwd=folder, check=False)
        try:
            over = greedy(graph, job)[1]
            if over is not None:
                told = (ran.returncode, ran.stdout, ran.stderr)
                want(told == (5, "", f"unplaced: vertex {over + 1}\n"), f"{told}, overfills at {over + 1}")
                return "unplaced"
            want((ran.returncode, ran.stderr) == (0, ""), f"status {ran.returncode}, {ran.stderr!r}")
            with open(f"{folder}/part", encoding="ascii") as file:
                written = file.read()
            check_report(graph, job, ran.stdout, check_partition(graph, job, written))
            if job.is_deterministic:
                alone = [word if word != f"workers={workers}" else "workers=1" for word in command]
                subprocess.run(alone, capture_output=True, cwd=folder, check=False)
                with open(f"{folder}/part", encoding="ascii") as file:
                    want(file.read() == written, "one worker writes another partition")
            return "done"
        except (Fault, ValueError, OSError) as fault:
            print(f"run {number}: {fault}", " ".join(command), ran.stdout, sep="\n")
            print(f"graph:\n{graph.text()}fixes:\n{fixes}", end="")
            sys.exit(1)


def main() -> None:
    """Checks the runs that are asked."""
    program, *words = sys.argv[1:]
    own = {"runs": 1000, "from": 0, "workers": 8}
    others = []
    for word in words:
        key, _, value = word.partition("=")
        if key in own:
            own[key] = int(value)
        else:
            others.append(word)
    ends = collections.Counter()
    for number in range(own["from"], own["from"] + own["runs"]):
        ends[check_run(program, number, own["workers"], others)] += 1
    print(f"{own['runs']} runs as they should be: {ends['done']} done, {ends['unplaced']} unplaced")


if __name__ == "__main__":
    main()
