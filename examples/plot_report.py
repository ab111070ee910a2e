#!/usr/bin/env python3
"""Draws a report of `hgpart partition`: plot_report.py REPORT PICTURE.

The picture, a PNG or SVG by its name, has the cost after each round with the levels marked, and the
loads of the blocks against the limit. A text that is no such report is refused with its first wrong
line. It needs matplotlib (Debian: python3-matplotlib).
"""
from __future__ import annotations

import re
import sys
from dataclasses import dataclass, field

import matplotlib

matplotlib.use("Agg")
import matplotlib.pyplot as plt  # noqa: E402

HEAD = ["vertices", "nets", "weight", "blocks", "limit", "seed", "workers"]
LEVELS = ["greedy", "levels", "start", "first"]
COLOURS = {"label": "tab:blue", "search": "tab:orange", "flow": "tab:green", "sweep": "tab:red"}
MOVED = re.compile(
    r"round (\d+) (label|search|sweep) moves \d+ kept \d+ before (\d+) made \d+ after (\d+) gains( -?\d+)+"
)
FLOWED = re.compile(r"round (\d+) (flow) \d+ \d+ region \d+ value \d+ before (\d+) after (\d+)")
CYCLE = re.compile(r"cycle (\d+) levels (\d+) before (\d+) after (\d+)")


class NoReport(Exception):
    """A text that is no report: the number of the first wrong line, and what was expected there."""


@dataclass
class Round:
    level: int
    kind: str
    before: int
    after: int


@dataclass
class Report:
    numbers: dict[str, int] = field(default_factory=dict)
    rounds: list[Round] = field(default_factory=list)
    cycles: list[int] = field(default_factory=list)
    loads: list[int] = field(default_factory=list)
    objective: str = "km1"
    chosen: str = ""


class Lines:
    """The lines of a text, one after the other."""

    def __init__(self, text: str) -> None:
        if not text.endswith("\n"):
            raise NoReport("the last line doesn't end")
        self.lines = text.split("\n")[:-1]
        self.at = 0

    def peek(self) -> str:
        return self.lines[self.at] if self.at < len(self.lines) else ""

    def take(self, pattern: str | re.Pattern[str], wanted: str) -> re.Match[str]:
        found = re.fullmatch(pattern, self.peek())
        if not found:
            raise NoReport(f"line {self.at + 1}: expected {wanted}, found {self.peek()!r}")
        self.at += 1
        return found

    def number(self, word: str) -> int:
        return int(self.take(rf"{word} (\d+)", f"'{word} N'")[1])


def read_rounds(lines: Lines, report: Report, kinds: set[str]) -> None:
    """The round lines of these kinds that come next."""
    while lines.peek().startswith("round "):
        found = MOVED.fullmatch(lines.peek()) or FLOWED.fullmatch(lines.peek())
        if not found:
            raise NoReport(f"line {lines.at + 1}: expected a round, found {lines.peek()!r}")
        if found[2] not in kinds:
            return
        report.rounds.append(Round(int(found[1]), found[2], int(found[3]), int(found[4])))
        lines.at += 1


def read_report(text: str) -> Report:
    lines, report = Lines(text), Report()
    for word in HEAD:
        report.numbers[word] = lines.number(word)
    if lines.peek().startswith("objective"):
        report.objective = lines.take(r"objective (cut|soed)", "'objective cut' or 'objective soed'")[1]
    for word in LEVELS:
        report.numbers[word] = lines.number(word)
    read_rounds(lines, report, {"label", "search", "flow"})
    report.chosen = lines.take(r"chosen (levels|greedy)", "'chosen levels' or 'chosen greedy'")[1]
    read_rounds(lines, report, {"sweep"})
    while lines.peek().startswith("cycle "):
        lines.take(CYCLE, "a cycle")
        report.cycles.append(len(report.rounds))
        read_rounds(lines, report, {"label", "search", "flow"})
        read_rounds(lines, report, {"sweep"})
    report.numbers["cost"] = lines.number("cost")
    for block in range(report.numbers["blocks"]):
        report.loads.append(int(lines.take(rf"load {block} (\d+)", f"'load {block} N'")[1]))
    if lines.at < len(lines.lines):
        raise NoReport(f"line {lines.at + 1}: expected the end, found {lines.peek()!r}")
    return report


def draw_costs(axes: plt.Axes, report: Report) -> None:
    """The cost after each round; a grey band for every second level, a line where a cycle begins."""
    costs = [report.numbers["first"]] + [one.after for one in report.rounds]
    axes.plot(range(len(costs)), costs, color="0.7", linewidth=1, zorder=1)
    for kind, colour in COLOURS.items():
        places = [i + 1 for i, one in enumerate(report.rounds) if one.kind == kind]
        if places:
            axes.scatter(places, [costs[i] for i in places], s=14, color=colour, label=kind, zorder=2)
    begin = 0
    for i, one in enumerate(report.rounds):
        last = i + 1 == len(report.rounds)
        if last or report.rounds[i + 1].level != one.level or i + 1 in report.cycles:
            if one.level % 2 == 0:
                axes.axvspan(begin + 0.5, i + 1.5, color="0.94", zorder=0)
            axes.annotate(str(one.level), ((begin + i) / 2 + 1, 0), xycoords=("data", "axes fraction"),
                          ha="center", va="bottom", fontsize=7, color="0.4")
            begin = i + 1
    for place in report.cycles:
        axes.axvline(place + 0.5, color="0.5", linestyle=":")
    axes.axhline(report.numbers["greedy"], color="0.5", linestyle="--", linewidth=1, label="greedy placement")
    axes.set_xlabel("round (its level below)")
    axes.set_ylabel(f"cost ({report.objective})")
    axes.set_title(f"cost {report.numbers['cost']} after {len(report.rounds)} rounds")
    axes.legend(fontsize=8)


def draw_loads(axes: plt.Axes, report: Report) -> None:
    axes.bar(range(len(report.loads)), report.loads, color="tab:blue")
    axes.axhline(report.numbers["limit"], color="tab:red", linewidth=1, label=f"limit {report.numbers['limit']}")
    axes.xaxis.get_major_locator().set_params(integer=True)
    axes.set_xlabel("block")
    axes.set_ylabel("load")
    axes.set_title(f"{report.numbers['blocks']} blocks")
    axes.legend(fontsize=8, loc="lower right")


def main() -> int:
    if len(sys.argv) != 3:
        print("usage: plot_report.py REPORT PICTURE", file=sys.stderr)
        return 2
    try:
        with open(sys.argv[1], encoding="utf-8") as file:
            report = read_report(file.read())
    except (NoReport, UnicodeDecodeError, OSError) as error:
        print(f"{sys.argv[1]} is no report of a partition: {error}", file=sys.stderr)
        return 1
    figure, (costs, loads) = plt.subplots(1, 2, figsize=(10, 4), gridspec_kw={"width_ratios": [3, 1]})
    draw_costs(costs, report)
    draw_loads(loads, report)
    figure.tight_layout()
    figure.savefig(sys.argv[2])
    return 0


if __name__ == "__main__":
    sys.exit(main())
