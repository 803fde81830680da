#!/usr/bin/env python3
"""Times `glpsol` on integer programs with one worker, two and four, and counts the splits of each search.

usage: bench/workers.py [--ours PATH] [--workers N ..] [--runs N] [--least SECONDS] [--limit SECONDS] [--made N]
                        [--examples FOLDER] [FILE ...]

A FILE ends in .lp (CPLEX LP), .mps (free MPS) or .mod (GNU MathProg). Without files it takes those programs that one worker
decides in 1 to 60 seconds of the clock (--least, --limit): of the integer examples of GLPK (Debian's glpk-utils, or FOLDER),
as GLPK writes them in CPLEX LP, and of set covers and knapsacks that are made from fixed seeds, of these the first N (10).

Each program is run N times (3), by one worker, two and four in each round. It prints the median seconds of the clock, with
the splits of the certificate in the run of that time; a `!` where the objectives differ or a run finds no verdict, and then
its status is 1. Last it prints the geometric means, over the programs, of the seconds and of the splits as parts of those
of one worker, beside the bars: 0.65 of the seconds by two workers, 0.4 by four, and by four at most 1.3 times the splits.
The bars are for a machine on which nothing else runs, with as many processors as workers: it prints how many there are, and
the load at the start and at the end.
"""
import argparse
import math
import os
import random
import re
import subprocess
import sys
import tempfile
import time

from integer_programs import EXAMPLES, GLPK, PROGRAM, READS, cover, program_of, text_in, written

MOST_SPLITS = "1000000"
BARS = {2: {"seconds": 0.65}, 4: {"seconds": 0.4, "splits": 1.3}}


def knapsack_of_rows(items, rows):
    """A knapsack with several weights, each with a limit of its own."""
    pick = random.Random(1000 * items + rows)
    weights = [[pick.randint(10, 99) for _ in range(items)] for _ in range(rows)]
    names = [f"x{k}" for k in range(items)]
    worths = [(sum(weight[k] for weight in weights) // rows + pick.randint(-8, 8), name) for k, name in enumerate(names)]
    limits = [(f"weight{i}", list(zip(weight, names)), "<=", sum(weight) // 2) for i, weight in enumerate(weights)]
    return program_of("maximize", worths, limits, names)


# Some of these may be decided sooner than is asked for, or later: they are passed over.
MADE = [
    ("cover of 160 by 160", cover, (160, 160)),
    ("cover of 180 by 120", cover, (180, 120)),
    ("cover of 180 by 150", cover, (180, 150)),
    ("cover of 200 by 120", cover, (200, 120)),
    ("cover of 200 by 150", cover, (200, 150)),
    ("cover of 220 by 150", cover, (220, 150)),
    ("knapsack of 30 by 5", knapsack_of_rows, (30, 5)),
    ("knapsack of 35 by 5", knapsack_of_rows, (35, 5)),
    ("knapsack of 40 by 5", knapsack_of_rows, (40, 5)),
    ("knapsack of 30 by 8", knapsack_of_rows, (30, 8)),
    ("knapsack of 40 by 3", knapsack_of_rows, (40, 3)),
    ("knapsack of 50 by 3", knapsack_of_rows, (50, 3)),
    ("knapsack of 60 by 2", knapsack_of_rows, (60, 2)),
    ("cover of 240 by 160", cover, (240, 160)),
]


class Run:
    """What one run gives: seconds of the clock, the report, and the splits of its certificate."""

    def __init__(self, seconds, report, splits):
        self.seconds, self.report, self.splits = seconds, report, splits

    def decides(self):
        return self.report.split("\n")[0] in ("OPTIMAL", "INFEASIBLE", "UNBOUNDED")

    def objective(self):
        """The verdict, and the objective where there is one: the same in each run, whoever searches."""
        found = re.match(r"OPTIMAL\nobjective \S+ (\S+)", self.report)
        return found.group(1) if found else self.report.split("\n")[0]


class Program:
    """The program that is measured, and the file of its certificates."""

    def __init__(self, ours, limit, folder):
        self.ours, self.limit, self.folder = ours, limit, folder
        self.certificate = os.path.join(folder, "certificate")

    def run(self, path, workers):
        """One run; none where it does not end in time."""
        if os.path.exists(self.certificate):
            os.remove(self.certificate)
        reads = READS[os.path.splitext(path)[1]]
        words = [self.ours, *reads, path, "--nodlim", MOST_SPLITS, "--workers", str(workers), "--cert", self.certificate]
        began = time.monotonic()
        try:
            done = subprocess.run(words, cwd=self.folder, stdin=subprocess.DEVNULL, capture_output=True, timeout=self.limit)
        except subprocess.TimeoutExpired:
            return None
        seconds = time.monotonic() - began
        splits = len(re.findall(r"^split ", text_in(self.certificate).partition("\ntree\n")[2], re.M))
        return Run(seconds, done.stdout.decode(errors="replace"), splits)


def examples_of(source, folder):
    """GLPK's integer examples, as CPLEX LP."""
    kinds = {".mod": "--math", ".lp": "--lp", ".mps": "--mps"}
    for name in sorted(os.listdir(source)):
        kind = os.path.splitext(name)[1]
        path = written(os.path.join(source, name), kinds[kind], folder) if kind in kinds else None
        if path and re.search(r"^(Generals|Binaries|Integers)", text_in(path), re.M):
            yield name, path


def made_in(folder):
    """The programs that are made, each as a file."""
    for name, make, size in MADE:
        path = os.path.join(folder, name.replace(" ", "_") + ".lp")
        with open(path, "w", encoding="utf-8") as file:
            file.write(make(*size))
        yield name, path


def fitting(program, programs, least, most=None):
    """The programs that one worker decides in the time that is asked for, no more than `most` of them."""
    found = []
    for name, path in programs:
        if most is not None and len(found) == most:
            break
        first = program.run(path, 1)
        if first and first.decides() and first.seconds >= least:
            found.append((name, path))
    return found


def middle(runs):
    """The run with the median time."""
    return sorted(runs, key=lambda run: run.seconds)[len(runs) // 2]


def measure(name, path, program, asked):
    """The median run of each number of workers, none where one does not end; and whether all find the same."""
    runs = {workers: [] for workers in asked.workers}
    for _ in range(asked.runs):
        for workers in asked.workers:
            done = program.run(path, workers)
            if done is None or not done.decides():
                told = done.report.split("\n")[0] if done else "not in time"
                print(f"! {name:24} {workers} workers: {told}", flush=True)
                return None, False
            runs[workers].append(done)
    same = len({run.objective() for many in runs.values() for run in many}) == 1
    medians = {workers: middle(many) for workers, many in runs.items()}
    cells = [f"{workers}: {run.seconds:8.3f} s {run.splits:7} splits" for workers, run in medians.items()]
    print(f"{' ' if same else '!'} {name:24} " + "   ".join(cells), flush=True)
    return medians, same


def mean(parts):
    return math.exp(sum(map(math.log, parts)) / len(parts))


def compare(measured, workers):
    """Prints the means beside the bars, of so many workers."""
    parts = {
        "seconds": mean([runs[workers].seconds / runs[1].seconds for runs in measured]),
        "splits": mean([(runs[workers].splits + 1) / (runs[1].splits + 1) for runs in measured]),
    }
    for what, part in parts.items():
        bar = BARS.get(workers, {}).get(what)
        verdict = "" if bar is None else f", bar {bar}: {'kept' if part <= bar else 'MISSED'}"
        print(f"{workers} workers: {part:.3f} of one worker's {what}{verdict}")


def words():
    reader = argparse.ArgumentParser()
    reader.add_argument("files", nargs="*")
    reader.add_argument("--ours", default=PROGRAM)
    reader.add_argument("--workers", type=int, nargs="+", default=[1, 2, 4])
    reader.add_argument("--runs", type=int, default=3)
    reader.add_argument("--least", type=float, default=1)
    reader.add_argument("--limit", type=float, default=60)
    reader.add_argument("--made", type=int, default=10)
    reader.add_argument("--examples", default=EXAMPLES)
    asked = reader.parse_args()
    asked.ours = os.path.abspath(asked.ours)
    asked.workers = sorted({1, *asked.workers})
    if not os.path.exists(asked.ours):
        sys.exit(f"{asked.ours} is not there: build it, or name it by --ours")
    if not asked.files and not (GLPK and os.path.isdir(asked.examples)):
        sys.exit(f"GLPK or {asked.examples} is not there: install Debian's glpk-utils, or name files")
    return asked


def chosen(asked, program, folder):
    """The programs that are measured."""
    if asked.files:
        return [(os.path.basename(path), os.path.abspath(path)) for path in asked.files]
    of_glpk = fitting(program, examples_of(asked.examples, folder), asked.least)
    return of_glpk + fitting(program, made_in(folder), asked.least, asked.made)


def load():
    return f"load {os.getloadavg()[0]:.2f}"


def main():
    asked = words()
    print(f"{os.cpu_count()} processors, {load()}")
    with tempfile.TemporaryDirectory() as folder:
        program = Program(asked.ours, asked.limit, folder)
        results = [measure(name, path, program, asked) for name, path in chosen(asked, program, folder)]
    measured = [medians for medians, _ in results if medians]
    print(f"{len(measured)} programs, {load()}")
    for workers in asked.workers[1:]:
        if measured:
            compare(measured, workers)
    sys.exit(0 if all(same for _, same in results) else 1)


if __name__ == "__main__":
    main()
