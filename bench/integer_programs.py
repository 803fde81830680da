#!/usr/bin/env python3
"""Times `glpsol` on integer programs beside GLPK's `glpsol` and `cbc`, and sees that all find the same objective.

usage: bench/integer_programs.py [--ours PATH] [--runs N] [--limit SECONDS] [--nodlim N] [--rowsplit] [--gomory] [--examples [FOLDER]] [FILE ...]

A FILE ends in .lp (CPLEX LP), .mps (free MPS) or .mod (GNU MathProg, which GLPK writes as CPLEX LP first, so that all
solvers read the same file). Without files it makes a knapsack of 50 items, an assignment of 12 by 12, and a set cover of
40 rows by 60 columns, from fixed seeds. With --examples the integer examples of GLPK are added (Debian's glpk-utils, or
FOLDER), those that GLPK solves within a second.

With --rowsplit and --gomory this program is run with these words.

GLPK's `glpsol` (Debian's glpk-utils) and `cbc` (Debian's coinor-cbc) are run where they are installed, one program after
the other in each round. It prints the median seconds of processor time, the verdict and the objective of each, the nodes
of each tree, and this program's nodes a second; a `!` where two objectives differ, and then its status is 1. Of this
program's certificate it prints whether `--checkcert` accepts it, and how long that takes.
"""
import argparse
import os
import random
import re
import shutil
import statistics
import subprocess
import sys
import tempfile
import threading
from fractions import Fraction

TOP = os.path.dirname(os.path.dirname(os.path.abspath(__file__)))
PROGRAM = os.path.join(TOP, "crates", "glpsol", "out", "glpsol")
EXAMPLES = "/usr/share/doc/glpk-utils/examples"
GLPK, CBC = shutil.which("glpsol"), shutil.which("cbc")
READS = {".mod": ["--math"], ".lp": ["--lp"], ".mps": ["--freemps"]}


def sum_of(terms):
    """A form of CPLEX LP, eight terms a line."""
    lines = [terms[k : k + 8] for k in range(0, len(terms), 8)]
    return "\n   ".join(" + ".join(f"{a} {x}" for a, x in line) + (" +" if line is not lines[-1] else "") for line in lines)


def program_of(direction, objective, rows, columns):
    """A CPLEX LP text in which each column is 0 or 1."""
    lines = [direction, f" cost: {sum_of(objective)}", "subject to"]
    lines += [f" {name}: {sum_of(terms)} {relation} {number}" for name, terms, relation, number in rows]
    lines += ["binary"] + [f" {column}" for column in columns] + ["end"]
    return "\n".join(lines) + "\n"


def knapsack(items):
    pick = random.Random(items)
    weights = [pick.randint(10, 99) for _ in range(items)]
    worths = [weight + pick.randint(-8, 8) for weight in weights]
    names = [f"x{k}" for k in range(items)]
    row = ("weight", list(zip(weights, names)), "<=", sum(weights) // 2)
    return program_of("maximize", list(zip(worths, names)), [row], names)


def assignment(size):
    pick = random.Random(size)
    cost = {(i, j): pick.randint(1, 99) for i in range(size) for j in range(size)}
    rows = [(f"worker{i}", [(1, f"x{i}_{j}") for j in range(size)], "=", 1) for i in range(size)]
    rows += [(f"job{j}", [(1, f"x{i}_{j}") for i in range(size)], "=", 1) for j in range(size)]
    return program_of("minimize", [(c, f"x{i}_{j}") for (i, j), c in cost.items()], rows, [f"x{i}_{j}" for i, j in cost])


def cover(elements, sets):
    pick = random.Random(elements * sets)
    holds = [[j for j in range(sets) if pick.random() < 0.1] or [pick.randrange(sets)] for _ in range(elements)]
    rows = [(f"element{i}", [(1, f"s{j}") for j in held], ">=", 1) for i, held in enumerate(holds)]
    used = sorted({j for held in holds for j in held})
    return program_of("minimize", [(pick.randint(1, 9), f"s{j}") for j in used], rows, [f"s{j}" for j in used])


MADE = {
    "knapsack of 50.lp": lambda: knapsack(50),
    "assignment of 12 by 12.lp": lambda: assignment(12),
    "cover of 40 by 60.lp": lambda: cover(40, 60),
}


class Found:
    """What a solver answers: a verdict in one word, the objective where there is one, and the nodes of its tree."""

    def __init__(self, seconds, verdict, objective=None, nodes=None):
        self.seconds, self.verdict, self.objective, self.nodes = seconds, verdict, objective, nodes

    def shown(self):
        seconds = "    none" if self.seconds is None else f"{self.seconds:8.4f}"
        objective = "" if self.objective is None else f"{float(self.objective):.10g}"
        nodes = "" if self.nodes is None else f"{self.nodes} nodes"
        return f"{seconds} s {self.verdict[:18]:>10} {objective:>12} {nodes:>13}"


def timed(words, limit, folder):
    """The seconds of processor time that a program takes, none where it does not end in time, and its output."""
    with tempfile.TemporaryFile("w+", errors="replace") as output:
        began = subprocess.Popen(words, cwd=folder, stdin=subprocess.DEVNULL, stdout=output, stderr=subprocess.DEVNULL)
        watch = threading.Timer(limit, began.kill)
        watch.start()
        _, status, used = os.wait4(began.pid, 0)
        watch.cancel()
        began.returncode = os.waitstatus_to_exitcode(status)
        output.seek(0)
        return None if began.returncode < 0 else used.ru_utime + used.ru_stime, output.read()


def text_in(path):
    """The text of a file, empty where there is none."""
    if not os.path.exists(path):
        return ""
    with open(path, errors="replace") as file:
        return file.read()


class Solvers:
    """The programs, and the files that they write."""

    def __init__(self, asked, folder):
        self.asked, self.folder = asked, folder
        self.certificate = os.path.join(folder, "certificate")
        self.solution = os.path.join(folder, "solution")
        self.runs = {"this": self.ours} | ({"glpk": self.glpk} if GLPK else {}) | ({"cbc": self.cbc} if CBC else {})

    def run(self, words, limit=None):
        for path in [self.solution, self.certificate]:
            if os.path.exists(path) and "--checkcert" not in words:
                os.remove(path)
        return timed(words, limit or self.asked.limit, self.folder)

    def ours(self, path):
        reads = READS[os.path.splitext(path)[1]]
        limit = ["--nodlim", str(self.asked.nodlim)] if self.asked.nodlim is not None else []
        limit += [f"--{word}" for word in ("rowsplit", "gomory") if getattr(self.asked, word)]
        seconds, text = self.run([self.asked.ours, *reads, path, *limit, "--cert", self.certificate])
        objective = re.match(r"OPTIMAL\nobjective \S+ (\S+)", text)
        splits = len(re.findall(r"^split ", text_in(self.certificate).partition("\ntree\n")[2], re.M))
        nodes = 2 * splits + 1 if os.path.exists(self.certificate) else None
        verdict = (text.split("\n")[0] or "none").replace("UNDECIDED ", "no ")
        return Found(seconds, verdict, Fraction(objective.group(1)) if objective else None, nodes)

    def checked(self, path):
        """How long the check of the certificate takes, and its answer; none where there is no certificate."""
        if not os.path.exists(self.certificate):
            return None
        reads = READS[os.path.splitext(path)[1]]
        return self.run([self.asked.ours, *reads, path, "--checkcert", self.certificate])

    def glpk(self, path, limit=None):
        reads = READS[os.path.splitext(path)[1]]
        seconds, text = self.run([GLPK, *reads, path, "-o", self.solution], limit)
        written = text_in(self.solution)
        status = re.search(r"Status: +(.*)", written)
        objective = re.search(r"Objective: +\S* = (\S+)", written)
        word = status.group(1).replace("INTEGER ", "").strip() if status else "none"
        if "HAS NO PRIMAL FEASIBLE" in text or "NO INTEGER FEASIBLE" in text or "EMPTY" in word:
            word = "INFEASIBLE"
        if "HAS NO DUAL FEASIBLE" in text or "UNBOUNDED" in text:
            word = "UNBOUNDED"
        nodes = re.findall(r"\(\d+; (\d+)\)", text)
        is_found = word == "OPTIMAL" and objective
        return Found(seconds, word, Fraction(objective.group(1)) if is_found else None, int(nodes[-1]) if nodes else None)

    def cbc(self, path):
        seconds, text = self.run([CBC, path, "ratio", "0", "allow", "0", "solve", "solution", self.solution])
        first = (text_in(self.solution).split("\n") or [""])[0]
        objective = re.search(r"objective value +(\S+)", first)
        word = {"Optimal": "OPTIMAL", "Infeasible": "INFEASIBLE", "Integer": "INFEASIBLE", "Unbounded": "UNBOUNDED"}
        verdict = word.get(first.split(" ")[0] if first else "", "none")
        nodes = re.search(r"Enumerated nodes: +(\d+)", text)
        is_found = verdict == "OPTIMAL" and objective
        return Found(seconds, verdict, Fraction(objective.group(1)) if is_found else None, int(nodes.group(1)) if nodes else None)


def agree(one, other):
    """Two answers are the same, but for what a solver in floating point may be off."""
    if one.objective is None or other.objective is None:
        return one.verdict == other.verdict or "none" in (one.verdict, other.verdict)
    return abs(one.objective - other.objective) <= Fraction(1, 10**6) * max(1, abs(one.objective))


def measure(name, path, solvers, runs):
    """Prints a program's line, and answers whether all solvers that decide it agree."""
    found, times, check = {}, {solver: [] for solver in solvers.runs}, None
    for _ in range(runs):
        for solver, run in solvers.runs.items():
            found[solver] = run(path)
            if solver == "this":
                check = solvers.checked(path)
            if found[solver].seconds is not None:
                times[solver].append(found[solver].seconds)
    for solver, answer in found.items():
        answer.seconds = statistics.median(times[solver]) if times[solver] else None
    mine = found["this"]
    decides = mine.verdict in ("OPTIMAL", "INFEASIBLE", "UNBOUNDED")
    same = not decides or all(agree(mine, other) for other in found.values())
    cells = [f"{solver} {answer.shown()}" for solver, answer in found.items()]
    if mine.nodes and mine.seconds:
        cells.append(f"{mine.nodes / mine.seconds:9.0f} nodes/s")
    if check:
        cells.append(f"check {check[0] or 0:.4f} s {check[1].strip()}")
    print(f"{'' if same else '! '}{name:28} " + "  ".join(cells), flush=True)
    return same


def written(path, reads, folder):
    """The program as GLPK writes it in CPLEX LP, which says its direction; none where GLPK does not."""
    target = os.path.join(folder, os.path.splitext(os.path.basename(path))[0] + ".lp")
    words = [GLPK, reads, path, "--check", "--wlp", target]
    try:
        done = subprocess.run(words, cwd=os.path.dirname(path), capture_output=True, timeout=60)
    except subprocess.TimeoutExpired:
        return None
    return target if not done.returncode and os.path.exists(target) else None


def examples_of(source, folder, solvers):
    """GLPK's integer examples that it solves within a second, as CPLEX LP."""
    fixed_and_others = {".mod": "--math", ".lp": "--lp", ".mps": "--mps"}
    for name in sorted(os.listdir(source)):
        path, kind = os.path.join(source, name), os.path.splitext(name)[1]
        if kind not in fixed_and_others:
            continue
        path = written(path, fixed_and_others[kind], folder)
        if not path or not re.search(r"^(Generals|Binaries|Integers)", text_in(path), re.M):
            continue
        answer = solvers.glpk(path, 2)
        if answer.seconds is not None and answer.seconds <= 1 and answer.verdict != "none":
            yield name, path


def main():
    words = argparse.ArgumentParser()
    words.add_argument("files", nargs="*")
    words.add_argument("--ours", default=PROGRAM)
    words.add_argument("--runs", type=int, default=3)
    words.add_argument("--limit", type=float, default=60)
    words.add_argument("--nodlim", type=int)
    words.add_argument("--rowsplit", action="store_true")
    words.add_argument("--gomory", action="store_true")
    words.add_argument("--examples", nargs="?", const=EXAMPLES)
    asked = words.parse_args()
    asked.ours = os.path.abspath(asked.ours)
    if not os.path.exists(asked.ours):
        sys.exit(f"{asked.ours} is not there: build it, or name it by --ours")
    if asked.examples and not os.path.isdir(asked.examples):
        sys.exit(f"{asked.examples} is not there: install Debian's glpk-utils, or name the folder")
    with tempfile.TemporaryDirectory() as folder:
        solvers = Solvers(asked, folder)
        programs = [(os.path.basename(path), os.path.abspath(path)) for path in asked.files]
        if not asked.files:
            for name, text in MADE.items():
                programs.append((name, os.path.join(folder, name.replace(" ", "_"))))
                with open(programs[-1][1], "w") as file:
                    file.write(text())
        if asked.examples and GLPK:
            programs += list(examples_of(asked.examples, folder, solvers))
        programs = [(name, written(path, "--math", folder) if path.endswith(".mod") else path) for name, path in programs]
        results = [measure(name, path, solvers, asked.runs) for name, path in programs if path]
        print(f"{len(results)} programs, {results.count(False)} on which the solvers differ")
    sys.exit(1 if False in results else 0)


if __name__ == "__main__":
    main()
