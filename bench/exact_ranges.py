#!/usr/bin/env python3
"""Measures `--ranges-exact` beside the plain solve, and compares the ranges of costs with those of GLPK's `--ranges`.

usage: bench/exact_ranges.py FILE.mps .. [--program PATH] [--runs N] [--most SECONDS]

A FILE is a free MPS text of a linear program (bench/relaxations.py writes those of GLPK's examples). Each is solved without
and with the option; a solve's share is what the ranges take over, by the number of ends (two of each column and of each
bound of a row) times a solve. GLPK's ranges are those of its last basis, in floating point: a range of a cost is told as
narrower, wider or other where one of its ends differs by more than what its five decimals leave out. Where GLPK's point is
another one, so are its ranges.
"""
import argparse
import os
import re
import shutil
import statistics
import subprocess
import tempfile
import time
from fractions import Fraction

HERE = os.path.dirname(os.path.abspath(__file__))
INFINITE = {"-Inf": float("-inf"), "+Inf": float("inf"), ".": 0.0}


def run(words, most):
    begin = time.perf_counter()
    try:
        text = subprocess.run(words, capture_output=True, text=True, timeout=most).stdout
    except subprocess.TimeoutExpired:
        text = "timeout"
    return time.perf_counter() - begin, text


def exact_costs(path):
    """The range of each column's cost, and how many ends the file has."""
    costs, ends = [], 0
    for line in open(path):
        word, _, low, high = line.split()
        ends += 2
        if word == "cost":
            low = float("-inf") if low == "none" else float(Fraction(low))
            costs.append((low, float("inf") if high == "none" else float(Fraction(high))))
    return costs, ends


def number(text):
    return INFINITE[text] if text in INFINITE else float(text)


def glpk_costs(text):
    """The range of each column's cost in GLPK's report, whose pages have two lines of figures for each column."""
    in_columns, first, found = False, None, []
    for line in text.split("\n"):
        if " name " in line:
            in_columns = "Column name" in line
        figures = re.match(r"^(?: *\d+ \S+| {19}) *(?:BS|NL|NU|NF|NS) +(.*)$", line)
        if in_columns and figures:
            first = figures.group(1).split()
        elif first and line.strip():
            found.append((number(first[4]), number(line.split()[3])))
            first = None
    return found


def compared(exact, other):
    """How many ranges of GLPK's are narrower, wider, or neither."""
    counts = {"narrower": 0, "wider": 0, "other": 0}
    for (low, high), (glpk_low, glpk_high) in zip(exact, other):
        near = lambda a, b: a == b or abs(a - b) <= 6e-6 + 1e-6 * max(abs(a), abs(b))
        if near(low, glpk_low) and near(high, glpk_high):
            continue
        inside = (near(low, glpk_low) or glpk_low > low) and (near(high, glpk_high) or glpk_high < high)
        outside = (near(low, glpk_low) or glpk_low < low) and (near(high, glpk_high) or glpk_high > high)
        counts["narrower" if inside else "wider" if outside else "other"] += 1
    return counts


def measured(path, given, folder):
    target, report = os.path.join(folder, "ranges"), os.path.join(folder, "report")
    name = os.path.basename(path).removesuffix(".mps")
    plain = [run([given.program, "--freemps", path], given.most)[0] for _ in range(given.runs)]
    if os.path.exists(target):
        os.remove(target)
    seconds, text = run([given.program, "--freemps", path, "--ranges-exact", target], given.most)
    if not os.path.exists(target):
        print(f"{name:12} no ranges: {text.strip().split(chr(10))[-1][:60]}", flush=True)
        return None
    exact, ends = exact_costs(target)
    solve = statistics.median(plain)
    share = (seconds - solve) / (ends * solve)
    told = f"{name:12} {ends:6} ends  solve {solve:8.4f} s  with ranges {seconds:9.3f} s  an end {share:6.3f} solves"
    if shutil.which("glpsol"):
        run([shutil.which("glpsol"), "--freemps", path, "--ranges", report], given.most)
        costs = glpk_costs(open(report).read()) if os.path.exists(report) else []
        if len(costs) == len(exact):
            counts = compared(exact, costs)
            told += "  GLPK's costs: " + ", ".join(f"{count} {kind}" for kind, count in counts.items() if count) + f" of {len(exact)}"
        else:
            told += f"  GLPK tells {len(costs)} of {len(exact)}"
    print(told, flush=True)
    return share


def main():
    words = argparse.ArgumentParser(description=__doc__, formatter_class=argparse.RawDescriptionHelpFormatter)
    words.add_argument("files", nargs="+")
    words.add_argument("--program", default=os.path.join(HERE, "..", "glpsol"))
    words.add_argument("--runs", type=int, default=3)
    words.add_argument("--most", type=float, default=300)
    given = words.parse_args()
    with tempfile.TemporaryDirectory() as folder:
        shares = [measured(path, given, folder) for path in given.files]
    told = [share for share in shares if share is not None and share > 0]
    if told:
        print(f"{len(told)} of {len(shares)}; an end takes {statistics.geometric_mean(told):.3f} solves by the geometric mean, at most {max(told):.3f}")


if __name__ == "__main__":
    main()
