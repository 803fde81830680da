#!/usr/bin/env python3
"""Compares verdicts and objectives of random small programs with those of GLPK's `glpsol`.

usage: bench/random_programs.py [--ours PATH] [--from SEED] [--programs N]

A program has up to five columns, some of them integer, and up to five rows, with small coefficients, as CPLEX LP. It says
where the two objectives differ by more than floating point explains, where a certificate is not accepted by
`--checkcert`, and where the raw solution tells another verdict; then how many programs came to which pair of verdicts.
Where the relaxation of an integer program is unbounded GLPK calls the program undefined.
"""
import argparse
import collections
import os
import random
import subprocess
import tempfile
from fractions import Fraction

TOP = os.path.dirname(os.path.dirname(os.path.abspath(__file__)))
PROGRAM = os.path.join(TOP, "crates", "glpsol", "out", "glpsol")
VERDICTS = ("OPTIMAL", "INFEASIBLE", "UNBOUNDED")
COEFFICIENTS = [0, 0, 1, 1, 2, 3, -1, -2, 5, 7, 0.5]


def form(pick, columns):
    terms = [(pick.choice(COEFFICIENTS), j) for j in range(columns)]
    return " ".join(f"{'-' if a < 0 else '+'} {abs(a)} x{j}" for a, j in terms if a) or "+ 1 x0"


def bounds_of(pick, j):
    return pick.choice(
        [f"x{j} <= {pick.randrange(9)}", f"-{pick.randrange(5)} <= x{j} <= {pick.randrange(9)}", f"x{j} free", f"x{j} >= 1", f"x{j} <= 100"]
    )


def program(seed):
    pick = random.Random(seed)
    columns = pick.randrange(1, 6)
    lines = [pick.choice(["min", "max"]), f" o: {form(pick, columns)}", "st"]
    for i in range(pick.randrange(1, 6)):
        lines.append(f" r{i}: {form(pick, columns)} {pick.choice(['<=', '>=', '='])} {pick.randrange(-5, 15)}")
    lines += ["bounds"] + [f" {bounds_of(pick, j)}" for j in range(columns)]
    whole = [f" x{j}" for j in range(columns) if pick.random() < 0.6]
    return "\n".join(lines + (["general"] + whole if whole else []) + ["end"]) + "\n"


def solved_here(ours, file, folder):
    """The verdict, the objective of a best point, and what is wrong with the files that were written."""
    certificate, raw = os.path.join(folder, "certificate"), os.path.join(folder, "raw")
    told = subprocess.run([ours, "--lp", file, "--cert", certificate, "-w", raw, "--nodlim", "2000"], capture_output=True, timeout=60).stdout.decode()
    verdict = told.split()[0]
    if verdict not in VERDICTS:
        return verdict, None, ""
    value = Fraction(told.split("\n")[1].split()[2]) if verdict == "OPTIMAL" else None
    accepted = subprocess.run([ours, "--lp", file, "--checkcert", certificate], capture_output=True, timeout=60).stdout
    wrong = "" if accepted == b"ACCEPTED\n" else " certificate refused"
    with open(raw, encoding="utf-8") as it:
        first = it.readline().split()
    return verdict, value, wrong + ("" if first[1] == verdict else " raw solution")


def solved_by_glpk(file, folder):
    """The status that GLPK tells, and its objective."""
    report = os.path.join(folder, "report")
    try:
        subprocess.run(["glpsol", "--lp", file, "--nopresol", "-o", report], capture_output=True, timeout=5)
    except subprocess.TimeoutExpired:
        return "not within 5 s", None
    if not os.path.exists(report):
        return "ended without a report", None
    with open(report, encoding="utf-8") as it:
        lines = it.read().split("\n")
    status = next(line.split(":", 1)[1].strip() for line in lines if line.startswith("Status:"))
    value = next(line.split("=", 1)[1].split()[0] for line in lines if line.startswith("Objective:"))
    os.remove(report)
    return status, float(value)


def main():
    words = argparse.ArgumentParser(description=__doc__, formatter_class=argparse.RawDescriptionHelpFormatter)
    words.add_argument("--ours", default=PROGRAM)
    words.add_argument("--from", type=int, default=0, dest="first")
    words.add_argument("--programs", type=int, default=500)
    given, found, is_well = words.parse_args(), collections.Counter(), True
    with tempfile.TemporaryDirectory() as folder:
        file = os.path.join(folder, "program.lp")
        for seed in range(given.first, given.first + given.programs):
            with open(file, "w", encoding="utf-8") as it:
                it.write(program(seed))
            verdict, value, wrong = solved_here(given.ours, file, folder)
            status, other = solved_by_glpk(file, folder)
            if value is not None and "OPTIMAL" in status and abs(float(value) - other) > 1e-5 * max(1, abs(other)):
                wrong += f" {value} here, {other} by GLPK"
            if wrong:
                print(f"{seed}:{wrong}")
                is_well = False
            found[verdict, status] += 1
    for (verdict, status), count in found.most_common():
        print(f"{count:6} {verdict} here, {status} by GLPK")
    raise SystemExit(0 if is_well else 1)


if __name__ == "__main__":
    main()
