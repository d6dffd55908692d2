"""Keeps what was measured: each time in a process of its own, the caches in turn, and the counts the same in each."""

import hashlib
import os
import subprocess
import sys
from dataclasses import dataclass, field
from statistics import median


@dataclass
class Cell:
    """What a cache or a program showed at one stage and capacity."""

    calls: int
    counts: tuple  # hits, misses, and what shows that they are the same ones
    times: list = field(default_factory=list)
    bytes: list = field(default_factory=list)  # at its highest, where it was looked at
    distinct: int = 0  # keys, where they were counted

    def best(self):
        return min(self.times) / self.calls

    def middle(self):
        return median(self.times) / self.calls


@dataclass
class Measured:
    cells: dict = field(default_factory=dict)  # by stage, capacity and cache
    bytes: dict = field(default_factory=dict)  # of an entry, by stage, capacity and cache

    def add(self, key, calls, time, counts):
        cell = self.cells.setdefault(key, Cell(calls, counts))
        if cell.counts != counts:
            stop(f"{key} counts {counts}, and {cell.counts} before")
        cell.times.append(time)
        return cell

    def agree(self):
        """Stops where two answered otherwise at the same stage."""
        first = {}
        for (stage, capacity, cache), cell in self.cells.items():
            other, counts = first.setdefault((stage, capacity), (cache, cell.counts))
            if counts != cell.counts:
                stop(f"{stage} at {capacity}: {cache} counts {cell.counts}, and {other} {counts}")


def stop(why):
    sys.exit(f"bench: {why}")


def answer(built, *words):
    words = [built.driver, *map(str, words)]
    return subprocess.run(words, stdout=subprocess.PIPE, text=True, check=True).stdout


def turned(things, at):
    """The things, begun at another one in each round."""
    things = list(things)
    at %= len(things)
    return things[at:] + things[:at]


def run_program(measured, built, key, words, source, calls):
    """Adds the processor time of a whole process, the highest memory that was resident, and what it wrote."""
    report = built.work / "report"
    with open(source, "rb") as reads, open(report, "wb") as writes:
        ran = subprocess.Popen(words, stdin=reads, stdout=writes)
        _, status, used = os.wait4(ran.pid, 0)
    if status:
        stop(f"{words} failed")
    text = report.read_bytes()
    counts = (text.count(b"H\n"), text.count(b"M\n"), hashlib.sha256(text).hexdigest())
    cell = measured.add(key, calls, (used.ru_utime + used.ru_stime) * 1e9, counts)
    cell.bytes.append(used.ru_maxrss * 1024)
