#!/usr/bin/env python3
"""Times `glpsol --freemps` on random linear programs, and other exact solvers on the same files where they are installed.

usage: bench/linear_programs.py [--runs N] [--most ROWS] [FILE.mps ...]

Without files it makes dense and sparse programs of 10 to 200 rows (to ROWS at most) with small whole coefficients;
bench/relaxations.py writes files of real models. GLPK's `glpsol --exact --nopresol` (Debian's glpk-utils) and `esolver`
(Debian's qsopt-ex) are run on the same files, one program after the other in each round. It prints the median seconds
of processor time of each (which other work on the machine disturbs little), the optimum that each finds, and the ratios of this program's time to theirs; last the geometric means of the
ratios, without the programs that this one or the other does not solve, and the programs that take longer than GLPK's
and longer than 10 ms. A program that takes more than 60 seconds counts as none. Each certificate is checked by
`--checkcert`, and its time printed too. Without files it solves and checks chains of 500 to 2,000 rows at the end, and
programs of shapes that are far from square: 3 rows and 2,000 columns, 40,000 rows of one column, and 10,000 columns
without rows, each with an optimum, without a feasible point and without an optimum.
"""
import os
import random
import re
import shutil
import statistics
import subprocess
import sys
import tempfile
import threading
from fractions import Fraction

GLPK = shutil.which("glpsol")

TOP = os.path.dirname(os.path.dirname(os.path.abspath(__file__)))
PROGRAM = os.path.join(TOP, "crates", "glpsol", "out", "glpsol")
LIMIT = 60


def text_of(rows, columns, density, seed):
    """A program whose columns go from 0 to 20, with a point that meets all rows."""
    pick = random.Random(seed)
    point = [pick.randint(0, 9) for _ in range(columns)]
    lines = ["NAME random", "ROWS", " N cost"]
    kinds = [pick.choice("LLGE") if i % 5 == 0 else pick.choice("LG") for i in range(rows)]
    lines += [f" {kind} r{i}" for i, kind in enumerate(kinds)]
    lines.append("COLUMNS")
    sums = [0] * rows
    for j in range(columns):
        lines.append(f" x{j} cost {pick.choice([-1, 1]) * pick.randint(1, 9)}")
        for i in range(rows):
            if pick.random() < density:
                a = pick.choice([-1, 1]) * pick.randint(1, 9)
                sums[i] += a * point[j]
                lines.append(f" x{j} r{i} {a}")
    lines.append("RHS")
    for i, kind in enumerate(kinds):
        slack = 0 if kind == "E" else pick.randint(0, 20)
        lines.append(f" R r{i} {sums[i] + (slack if kind == 'L' else -slack)}")
    lines.append("BOUNDS")
    lines += [f" UP b x{j} 20" for j in range(columns)]
    lines.append("ENDATA")
    return "\n".join(lines) + "\n"


def chain_of(rows):
    """Rows that each tie two neighbours, of which few bind: a program that many rows make long, and few steps solve."""
    lines = ["NAME chain", "ROWS", " N cost"] + [f" L r{i}" for i in range(rows)] + ["COLUMNS"]
    for j in range(rows):
        lines.append(f" x{j} cost {-(j % 7 + 1) if j % 20 == 0 else j % 3}")
        lines.append(f" x{j} r{j} {j % 5 + 1}")
        if j > 0:
            lines.append(f" x{j} r{j - 1} -{j % 4 + 1}")
    lines += ["RHS"] + [f" R r{i} {i % 11 + 3}" for i in range(rows)]
    lines += ["BOUNDS"] + [f" UP b x{j} 50" for j in range(rows)] + ["ENDATA"]
    return "\n".join(lines) + "\n"


def shape_of(rows, columns, verdict):
    """A program with an entry in each place, whose columns go from 0 to 20, that has this verdict."""
    pick = random.Random(rows + columns)
    entries = [[pick.randint(1, 9) for _ in range(columns)] for _ in range(rows)]
    kinds = ["G" if verdict == "UNBOUNDED" or i % 2 else "L" for i in range(rows)]
    lines = ["NAME shape", "ROWS", " N cost"] + [f" {kind} r{i}" for i, kind in enumerate(kinds)] + ["COLUMNS"]
    for j in range(columns):
        lines.append(f" x{j} cost {pick.choice([-1, 1]) * pick.randint(1, 9) if j else -9}")
        lines += [f" x{j} r{i} {row[j]}" for i, row in enumerate(entries)]
    lines.append("RHS")
    lines += [f" R r{i} {sum(row) if kinds[i] == 'G' else 5 * sum(row)}" for i, row in enumerate(entries)]
    if verdict == "INFEASIBLE" and rows:
        lines[-rows] = " R r0 -1"
    lines.append("BOUNDS")
    lines += [f" UP b x{j} 20" for j in range(1 if verdict == "UNBOUNDED" else 0, columns)]
    if verdict == "INFEASIBLE" and not rows:
        lines.append(" LO b x0 21")
    return "\n".join(lines + ["ENDATA"]) + "\n"


def shapes(folder):
    path = os.path.join(folder, "shape.mps")
    for rows, columns in [(3, 2000), (40000, 1), (0, 10000)]:
        for verdict in ["OPTIMAL", "INFEASIBLE", "UNBOUNDED"]:
            with open(path, "w") as file:
                file.write(shape_of(rows, columns, verdict))
            seconds, text = min(timed([PROGRAM, "--freemps", path]) for _ in range(3))
            print(f"{rows} rows, {columns} columns: {text.split()[0]} in {seconds:.4f} s")
            assert text.startswith(verdict), text


def chains(folder):
    path = os.path.join(folder, "chain.mps")
    for rows in [500, 1000, 2000]:
        with open(path, "w") as file:
            file.write(chain_of(rows))
        read = min(timed([PROGRAM, "--freemps", path, "--check"])[0] for _ in range(3))
        solved = min(ours(path, folder)[0] for _ in range(3))
        checked = min(check(path, folder)[0] for _ in range(3))
        print(f"chain of {rows} rows: read in {read:.4f} s, solved in {solved:.4f} s, read and checked in {checked:.4f} s")


def timed(words):
    """The seconds of processor time that a program takes, none where it does not end, and its output."""
    with tempfile.TemporaryFile("w+") as output:
        began = subprocess.Popen(words, stdout=output, stderr=subprocess.DEVNULL)
        limit = threading.Timer(LIMIT, began.kill)
        limit.start()
        _, status, used = os.wait4(began.pid, 0)
        limit.cancel()
        began.returncode = os.waitstatus_to_exitcode(status)
        if began.returncode < 0:
            return None, ""
        output.seek(0)
        return used.ru_utime + used.ru_stime, output.read()


def ours(path, folder):
    seconds, text = timed([PROGRAM, "--freemps", path, "--cert", os.path.join(folder, "certificate")])
    found = re.match(r"OPTIMAL\nobjective \S+ (\S+)", text)
    return seconds, str(float(Fraction(found.group(1)))) if found else text.split(":")[0].strip()


def check(path, folder):
    seconds, text = timed([PROGRAM, "--freemps", path, "--checkcert", os.path.join(folder, "certificate")])
    return seconds, text.strip()


def glpk(path, folder):
    solution = os.path.join(folder, "glpk.txt")
    seconds, text = timed([GLPK, "--freemps", path, "--exact", "--nopresol", "-o", solution])
    if seconds is None:
        return None, ""
    with open(solution) as file:
        found = re.search(r"Objective: +\S+ = (\S+)", file.read())
    return seconds, found.group(1) if found else ""


def qsopt(path, folder):
    plain = os.path.join(folder, "plain.mps")
    with open(path) as source, open(plain, "w") as target:
        target.write(source.read())
    seconds, text = timed(["esolver", "-O", os.path.join(folder, "qsopt"), plain])
    found = re.search(r"Value = ([-0-9/]+)", text)
    return seconds, str(float(Fraction(found.group(1)))) if found else ""


def shown(seconds):
    return "    none" if seconds is None else f"{seconds:8.4f}"


class Measured:
    """A program's medians in seconds by solver, none where a solver does not end, and what each answers."""

    def __init__(self, name, rows, times, values):
        self.name, self.rows, self.values = name, rows, values
        self.medians = {solver: statistics.median(it) if it else None for solver, it in times.items()}

    def ratio(self, other):
        """This program's time by the other's, or none where one of them does not solve it."""
        mine, theirs = self.medians["this"], self.medians.get(other)
        is_solved = self.values["this"] not in ("overflow", "UNDECIDED pivots", "")
        return mine / theirs if mine and theirs and is_solved and self.values[other] else None

    def is_slow(self):
        mine, theirs = self.medians["this"], self.medians.get("glpk")
        return mine is None or (theirs is not None and mine > theirs and mine > 0.01)


def measure(name, rows, path, folder, runs):
    others = [("glpk", glpk)] if GLPK else []
    others += [("qsopt", qsopt)] if shutil.which("esolver") else []
    solvers = [("this", ours)] + others
    times = {solver: [] for solver, _ in solvers}
    values = {}
    for _ in range(runs):
        for solver, run in solvers:
            seconds, values[solver] = run(path, folder)
            if seconds is not None:
                times[solver].append(seconds)
    found = Measured(name, rows, times, values)
    checked, verdict = check(path, folder)
    cells = [f"{solver} {shown(found.medians[solver])} s {values[solver][:12]:>12}" for solver, _ in solvers]
    for other, _ in others:
        if found.ratio(other):
            cells.append(f"of {other} {found.ratio(other):6.2f}")
    cells.append(f"check {shown(checked)} s {verdict}")
    print(f"{name:24} " + "  ".join(cells), flush=True)
    return found


def tell(found):
    """The geometric means of the ratios over these programs."""
    for other in ["glpk", "qsopt"]:
        known = [it.ratio(other) for it in found if it.ratio(other)]
        if known:
            print(f"geometric mean of the time by {other}'s, {len(known)} programs: {statistics.geometric_mean(known):.2f}")


def main():
    subprocess.run([os.path.join(TOP, "glpsol"), "--check"], stdout=subprocess.DEVNULL)  # builds it
    words = sys.argv[1:]
    runs, most, files = 5, 200, []
    while words:
        word = words.pop(0)
        if word == "--runs":
            runs = int(words.pop(0))
        elif word == "--most":
            most = int(words.pop(0))
        else:
            files.append(word)
    found = []
    with tempfile.TemporaryDirectory() as folder:
        for path in files:
            found.append(measure(os.path.basename(path), 0, path, folder, runs))
        if not files:
            for rows in [10, 20, 30, 50, 100, 200]:
                for shape, density in [("dense", 1.0), ("sparse", 0.1)]:
                    if rows > most:
                        continue
                    path = os.path.join(folder, "random.mps")
                    with open(path, "w") as file:
                        file.write(text_of(rows, rows, density, rows))
                    found.append(measure(f"{rows} rows, {shape}", rows, path, folder, runs))
            chains(folder)
            shapes(folder)
    if not files:
        print("up to 50 rows:")
        tell([it for it in found if it.rows <= 50])
    tell(found)
    slow = [it.name for it in found if it.is_slow()]
    print(f"slower than GLPK and than 10 ms: {', '.join(slow) or 'none'}")
    unsolved = [f"{it.name} ({it.values['this'] or 'none'})" for it in found if it.ratio("glpk") is None]
    print(f"without a ratio: {', '.join(unsolved) or 'none'}")


if __name__ == "__main__":
    main()
