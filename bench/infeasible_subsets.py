#!/usr/bin/env python3
"""Measures `--iis` beside the plain solve, and the sizes of subsets beside those of a deletion filter.

usage: bench/infeasible_subsets.py [FILE.mps ..] [--program PATH] [--sizes 20,50,..] [--networks 20,50,..] [--seeds N] [--runs N] [--filter ROWS]

A FILE is a free MPS text of a linear program that has a best point (bench/relaxations.py writes those of GLPK's examples):
a row is added that asks for a better value. Beside them random programs are made, one for each size and seed: rows over a
few columns that a point meets, and one combination of some of them that asks for more than they allow. And random
networks, a row for each node: a flow meets them, and then one set of nodes is to get more than its arcs can bring. Each is
solved without and with `--iis`, and the medians in seconds of all runs are compared. For programs of at most --filter rows the
deletion filter leaves out one bound after the other, and keeps it away where esolver (of qsopt-ex; without it this
program) still finds no point.
"""
import argparse
import math
import os
import random
import re
import shutil
import statistics
import subprocess
import tempfile
import time
from decimal import Decimal, getcontext
from fractions import Fraction

getcontext().prec = 60
HERE = os.path.dirname(os.path.abspath(__file__))


def plain(number):
    """The digits of a number whose denominator has factors 2 and 5 alone."""
    return format(Decimal(number.numerator) / Decimal(number.denominator), "f")


class Program:
    """Columns and rows by name, each with two bounds or none; forms by row."""

    def __init__(self):
        self.direction, self.objective = "MIN", {}
        self.rows, self.columns, self.forms = {}, {}, {}

    def bounds(self):
        return [
            (kind, name, side)
            for kind, parts in (("row", self.rows), ("column", self.columns))
            for name, pair in parts.items()
            for side in (0, 1)
            if pair[side] is not None
        ]

    def without(self, left_out):
        """The program without these bounds, and without an objective."""
        made = Program()
        made.forms = self.forms
        for kind, parts, others in (("row", self.rows, made.rows), ("column", self.columns, made.columns)):
            for name, pair in parts.items():
                others[name] = [None if (kind, name, side) in left_out else pair[side] for side in (0, 1)]
        return made

    def text(self):
        lines = ["NAME t", "ROWS", " N obj."]
        sides, ranges = [], []
        for name, (low, high) in self.rows.items():
            if low is None and high is None:
                lines.append(f" N {name}")
            elif low == high:
                lines.append(f" E {name}")
            else:
                lines.append(f" {'L' if low is None else 'G'} {name}")
            sides += [f" R {name} {plain(high if low is None else low)}"] if (low, high) != (None, None) else []
            ranges += [f" R {name} {plain(high - low)}"] if None not in (low, high) and low != high else []
        lines.append("COLUMNS")
        entries = {name: [f" {name} obj. {plain(self.objective.get(name, Fraction(0)))}"] for name in self.columns}
        for row, form in self.forms.items():
            for name, number in form.items():
                entries[name].append(f" {name} {row} {plain(number)}")
        lines += [line for of_one in entries.values() for line in of_one]
        lines += ["RHS"] + sides + (["RANGES"] + ranges if ranges else []) + ["BOUNDS"]
        for name, (low, high) in self.columns.items():
            lines.append(f" MI B {name}" if low is None else f" LO B {name} {plain(low)}")
            lines += [] if high is None else [f" UP B {name} {plain(high)}"]
        return "\n".join(lines + ["ENDATA", ""])


def read(path):
    """A linear program in free MPS, without the objective's constant."""
    made, section, objective, kinds = Program(), "", None, {}
    for line in open(path):
        fields = line.split()
        if not fields or line.startswith("*"):
            continue
        if not line.startswith(" "):
            section = fields[0]
        elif section == "ROWS":
            kind, name = fields
            if kind == "N" and objective is None:
                objective = name
            else:
                kinds[name] = kind
                made.rows[name] = [Fraction(0) if kind in "GE" else None, Fraction(0) if kind in "LE" else None]
                made.forms[name] = {}
        elif section == "COLUMNS":
            made.columns.setdefault(fields[0], [Fraction(0), None])
            for row, number in zip(fields[1::2], fields[2::2]):
                form = made.objective if row == objective else made.forms[row]
                form[fields[0]] = Fraction(number)
        elif section in ("RHS", "RANGES"):
            for row, number in zip(fields[1::2], fields[2::2]):
                if row != objective:
                    set_side(made.rows[row], kinds[row], Fraction(number), section)
        elif section == "BOUNDS":
            set_bound(made.columns[fields[2]], fields[0], fields[3:])
    return made


def set_side(pair, kind, number, section):
    if section == "RHS":
        pair[:] = [None if it is None else number for it in pair]
    elif kind == "E":
        pair[0 if number < 0 else 1] += number
    elif kind == "L":
        pair[0] = pair[1] - abs(number)
    elif kind == "G":
        pair[1] = pair[0] + abs(number)


def set_bound(pair, kind, rest):
    number = Fraction(rest[0]) if rest else None
    if kind in ("FR", "MI"):
        pair[0] = None
    if kind in ("FR", "PL"):
        pair[1] = None
    if kind in ("LO", "FX"):
        pair[0] = number
    if kind in ("UP", "FX"):
        pair[1] = number


def decimals(program):
    """The same with whole numbers and decimals alone, which free MPS has: each row times its denominators."""
    for row, form in program.forms.items():
        scale = 1
        for number in list(form.values()) + [it for it in program.rows[row] if it is not None]:
            scale *= number.denominator // math.gcd(scale, number.denominator)
        program.forms[row] = {name: number * scale for name, number in form.items()}
        program.rows[row] = [None if it is None else it * scale for it in program.rows[row]]
    return program


def asking_for_more(program, value):
    """One row more: the objective is to be better than its best value."""
    program.forms["better"] = dict(program.objective)
    program.rows["better"] = [None, value - 1 - abs(value) // 10]
    return decimals(program)


def random_program(rows, seed):
    chance = random.Random(f"{rows} {seed}")
    made = Program()
    names = [f"x{j}" for j in range(rows)]
    point = {name: chance.randint(0, 9) for name in names}
    made.columns = {name: [Fraction(0), Fraction(20) if chance.random() < 0.3 else None] for name in names}
    for i in range(rows - 1):
        form = {name: Fraction(chance.choice([-5, -3, -2, -1, 1, 2, 3, 5])) for name in chance.sample(names, min(5, rows))}
        value = sum(number * point[name] for name, number in form.items())
        slack = chance.randint(0, 3)
        made.forms[f"r{i}"] = form
        made.rows[f"r{i}"] = [value - slack, None] if chance.random() < 0.5 else [None, value + slack]
    wanted, bound = {}, Fraction(0)
    for row in chance.sample(list(made.forms), max(2, rows // 10)):
        low, high = made.rows[row]
        weight = chance.randint(1, 3) * (1 if high is None else -1)
        bound += weight * (low if high is None else high)
        for name, number in made.forms[row].items():
            wanted[name] = wanted.get(name, 0) + weight * number
    made.forms["last"] = {name: number for name, number in wanted.items() if number}
    made.rows["last"] = [None, bound - 1]
    made.objective = {name: Fraction(chance.randint(-5, 5)) for name in names}
    return made


def random_network(nodes, seed):
    chance = random.Random(f"network {nodes} {seed}")
    made = Program()
    supply = [Fraction(0)] * nodes
    near = set(chance.sample(range(nodes), max(1, nodes // 10)))
    room, forms = Fraction(0), [{} for _ in range(nodes)]
    for i in range(nodes):
        for to in {(i + 1) % nodes, chance.randrange(nodes), chance.randrange(nodes)} - {i}:
            name, flow = f"a{i}_{to}", chance.randint(0, 9)
            capacity = flow + chance.randint(0, 5)
            made.columns[name] = [Fraction(0), Fraction(capacity)]
            made.objective[name] = Fraction(chance.randint(1, 9))
            forms[i][name], forms[to][name] = Fraction(1), Fraction(-1)
            supply[i] += flow
            supply[to] -= flow
            # how much more a set of nodes can get: its arcs to it are filled, and those from it emptied
            room += capacity - flow if to in near and i not in near else flow if i in near and to not in near else 0
    far = [i for i in range(nodes) if i not in near]
    supply[chance.choice(far)] += room + 1
    supply[chance.choice(sorted(near))] -= room + 1
    for i in range(nodes):
        made.forms[f"n{i}"], made.rows[f"n{i}"] = forms[i], [supply[i], supply[i]]
    return made


def run(words):
    begin = time.perf_counter()
    found = subprocess.run(words, stdout=subprocess.PIPE, stderr=subprocess.STDOUT, text=True, timeout=600)
    return time.perf_counter() - begin, found.stdout


class Tools:
    def __init__(self, program, folder):
        self.program, self.folder = program, folder

    def file(self, program, name="f.mps"):
        path = os.path.join(self.folder, name)
        with open(path, "w") as target:
            target.write(program.text())
        return path

    def best_value(self, path):
        found = re.search(r"^objective \S+ (\S+)$", run([self.program, "--freemps", path])[1], re.M)
        return Fraction(found.group(1)) if found else None

    def is_infeasible(self, program):
        path = self.file(program, "filter.mps")
        if shutil.which("esolver"):
            text = run(["esolver", "-O", os.path.join(self.folder, "sol"), path])[1]
            return "INFEASIBLE" in text.upper()
        return run([self.program, "--freemps", path])[1].startswith("INFEASIBLE")


def filtered(tools, program):
    """How many bounds the deletion filter keeps."""
    left_out = set()
    for bound in program.bounds():
        if tools.is_infeasible(program.without(left_out | {bound})):
            left_out.add(bound)
    return len(program.bounds()) - len(left_out)


def measure(tools, name, program, runs, most):
    path = tools.file(program)
    plain, with_subset, text = [], [], ""
    for _ in range(runs):
        plain.append(run([tools.program, "--freemps", path])[0])
        seconds, text = run([tools.program, "--freemps", path, "--iis"])
        with_subset.append(seconds)
    found = re.search(r"^iis (\d+)$", text, re.M)
    size = found.group(1) if found else text.split("\n")[0][:40]
    ratio = statistics.median(with_subset) / statistics.median(plain)
    cells = f"{name:24} {len(program.rows):6} rows  plain {statistics.median(plain):8.4f} s  subset {statistics.median(with_subset):8.4f} s  {ratio:6.2f}  size {size}"
    if found and len(program.rows) <= most:
        cells += f"  filter {filtered(tools, program)}"
    print(cells, flush=True)
    return ratio if found else None


def main():
    words = argparse.ArgumentParser(description=__doc__, formatter_class=argparse.RawDescriptionHelpFormatter)
    words.add_argument("files", nargs="*")
    words.add_argument("--program", default=os.path.join(HERE, "..", "glpsol"))
    words.add_argument("--sizes", default="20,50,100,200,500,1000,2000")
    words.add_argument("--networks", default="20,50,100,200,500,1000,2000")
    words.add_argument("--seeds", type=int, default=3)
    words.add_argument("--runs", type=int, default=3)
    words.add_argument("--filter", type=int, default=50)
    given = words.parse_args()
    ratios = []
    with tempfile.TemporaryDirectory() as folder:
        tools = Tools(given.program, folder)
        programs = []
        for path in given.files:
            value = tools.best_value(path)
            if value is not None:
                programs.append((os.path.basename(path), asking_for_more(read(path), value)))
        for size in [int(size) for size in given.sizes.split(",") if size]:
            programs += [(f"random {size} {seed}", random_program(size, seed)) for seed in range(given.seeds)]
        for size in [int(size) for size in given.networks.split(",") if size]:
            programs += [(f"network {size} {seed}", random_network(size, seed)) for seed in range(given.seeds)]
        for name, program in programs:
            ratios.append(measure(tools, name, program, given.runs, given.filter))
    told = [ratio for ratio in ratios if ratio]
    if told:
        print(f"{len(told)} of {len(ratios)} with a subset; {statistics.geometric_mean(told):.2f} times the plain solve by the geometric mean")


if __name__ == "__main__":
    main()
