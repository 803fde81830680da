#!/usr/bin/env python3
"""Compares what random MathProg models print with what GLPK's `glpsol` prints of them.

usage: bench/random_models.py [--ours PATH] [--from SEED] [--models N]

A model prints numbers, strings, conditions and sets: arithmetic of small numbers whose fractions are sums of powers of two,
so that GLPK's floating point is exact, iterations and domains with conditions, set operations, `printf` and `for`. It prints
each model's first line that differs, and which of the two programs refuses a model that the other takes; then how many
models came to what. Known differences, which are counted apart: a zero that GLPK prints as -0; a fraction that `%s` shows as
`n/d` here; and what GLPK refuses: the test of
membership in some sets that are built, `--` of an expression, and large numbers for `%d`.
"""
import argparse
import collections
import os
import random
import re
import subprocess
import tempfile

TOP = os.path.dirname(os.path.dirname(os.path.abspath(__file__)))
PROGRAM = os.path.join(TOP, "crates", "glpsol", "out", "glpsol")
DECLARED = "set I := 1..4;\nset K := {3,1,7};\nparam p := 6;\nparam q{i in 1..3} := i*i - 2;\nparam w symbolic := 'wd';\n"
RELATIONS = ["<", "<=", "=", ">=", ">", "<>", "!=", "=="]
FORMATS = ["%g", "%g", "%.2f", "%8.3f", "%-9.1f|", "%010.2f", "%12g", "%s"]


class Writer:
    """Writes random expressions; names are the indices in scope, depth how many operators may still stand within one another."""

    def __init__(self, seed):
        self.pick = random.Random(seed)
        self.indices = 0

    def index(self):
        self.indices += 1
        return f"i{self.indices}"

    def plain_number(self, names):
        numbers = ["0", "1", "2", "3", "5", "7", "0.5", "1.25", "10", "-1", "-3", "2.5"]
        return self.pick.choice([self.pick.choice(numbers), "p", f"q[{self.pick.choice('123')}]", *names, *names])

    def number(self, depth, names=()):
        pick = self.pick
        if depth <= 0 or pick.random() < 0.15:
            return self.plain_number(names)
        inner = lambda: self.number(depth - 1, names)
        forms = [
            lambda: f"({inner()} {pick.choice(['+', '-', '*', 'less'])} {inner()})",
            lambda: f"({inner()} / {pick.choice(['2', '4', '8', '-2'])})",
            lambda: f"({inner()} div {pick.choice(['2', '3', '-3', '0.5'])})",
            lambda: f"({inner()} mod {pick.choice(['2', '3', '-3', '2.5'])})",
            lambda: f"(-{inner()})",
            lambda: f"{pick.choice(['abs', 'floor', 'ceil', 'round', 'trunc'])}({inner()})",
            lambda: f"{pick.choice(['round', 'trunc'])}({inner()}, {pick.choice(['0', '1', '2', '-1'])})",
            lambda: f"{pick.choice(['min', 'max'])}({inner()}, {inner()})",
            lambda: f"(if {self.condition(depth - 1, names)} then {inner()} else {inner()})",
            lambda: f"{pick.choice(['1', '2', '3', '0.5'])}**{pick.choice(['0', '1', '2', '3'])}",
            lambda: f"card({self.set(depth - 1, names)})",
            lambda: f"({pick.choice(['sum', 'sum', 'prod'])}{self.iterated(depth - 1, names)})",
            lambda: f"length({self.string(depth - 1, names)})",
        ]
        return pick.choice(forms)()

    def iterated(self, depth, names):
        """A domain of one index or two, with a condition or none, and a number behind it."""
        first, second = self.index(), self.index()
        domain, inside = f"{first} in {self.set(depth - 1, names)}", [*names, first]
        if self.pick.random() < 0.3:
            domain += f", {second} in {self.pick.choice(['1..2', 'I', first + '..3', '1..' + first])}"
            inside.append(second)
        condition = f": {self.condition(depth - 1, inside)}" if self.pick.random() < 0.4 else ""
        return f"{{{domain}{condition}}} {self.number(depth - 1, inside)}"

    def plain_set(self):
        return self.pick.choice(["I", "(1..4)", "{1,3,5}", "{2}", "(0..6 by 2)", "(3..1 by -1)", "(1..0)", "K"])

    def set(self, depth, names=()):
        pick = self.pick
        if depth <= 0 or pick.random() < 0.25:
            return self.plain_set()
        inner, index = lambda: self.set(depth - 1, names), self.index()
        forms = [
            lambda: f"({inner()} {pick.choice(['union', 'diff', 'symdiff', 'inter'])} {inner()})",
            lambda: f"{{{index} in {inner()}: {self.condition(depth - 1, [*names, index])}}}",
            lambda: f"(if {self.condition(depth - 1, names)} then {inner()} else {inner()})",
        ]
        return pick.choice(forms)()

    def condition(self, depth, names=()):
        pick, index = self.pick, self.index()
        small = lambda: self.number(min(depth - 1, 1), names)
        if depth <= 0 or pick.random() < 0.4:
            return f"{small()} {pick.choice(RELATIONS)} {small()}"
        inner = lambda inside=names: self.condition(depth - 1, inside)
        forms = [
            lambda: f"({inner()} {pick.choice(['and', 'or'])} {inner()})",
            lambda: f"not ({inner()})",
            lambda: f"({small()} {pick.choice(['in', 'not in'])} ({self.plain_set()} {pick.choice(['union', 'diff'])} {self.plain_set()}))",
            lambda: f"({self.plain_set()} within ({self.plain_set()} {pick.choice(['union', 'inter'])} {self.plain_set()}))",
            lambda: f"({pick.choice(['exists', 'forall'])}{{{index} in {self.set(depth - 1, names)}}} {inner([*names, index])})",
            lambda: f"({self.string(depth - 1, names)} {pick.choice(['=', '<>', '<', '>='])} {self.string(depth - 1, names)})",
        ]
        return pick.choice(forms)()

    def string(self, depth, names=()):
        pick = self.pick
        if depth <= 0 or pick.random() < 0.4:
            return pick.choice(['"abc"', '"x"', '""', "w", '"a b"', "'it''s'"])
        forms = [
            lambda: f"({self.string(depth - 1, names)} & {self.string(depth - 1, names)})",
            lambda: f"(if {self.condition(depth - 1, names)} then {self.string(depth - 1, names)} else {self.string(depth - 1, names)})",
            lambda: f"substr('abcdef', {pick.choice('1236')})",
            lambda: f"substr('abcdef', {pick.choice('123')}, {pick.choice('123')})",
        ]
        return pick.choice(forms)()

    def statement(self):
        pick = self.pick
        forms = [
            lambda: f'printf "{pick.choice(FORMATS)}\\n", {self.number(4)};',
            lambda: f'printf "%s|%5s|%-6s|\\n", {self.string(3)}, {self.string(2)}, {self.string(2)};',
            lambda: f'printf{{z in {self.set(3)}}}: "%g,", z; printf "\\n";',
            lambda: f'printf{{z in setof{{i in {self.set(2)}}} {pick.choice(["i", "(i+1)", "(i mod 2)", "abs(i-3)"])}}}: "%g,", z; printf "\\n";',
            lambda: f"printf \"%s\\n\", if {self.condition(4)} then 'T' else 'F';",
            lambda: f'for{{z in {self.set(2)}: {self.condition(2, ["z"])}}} {{ printf "%g=%g;", z, {self.number(2, ["z"])}; }} printf "\\n";',
            lambda: f'printf "%d %i|%3d|%-4d|%04d\\n", {pick.randrange(-50, 50)}, floor({self.number(3)}), {pick.randrange(-5, 99)}, {pick.randrange(-5, 99)}, {pick.randrange(-5, 99)};',
        ]
        return pick.choice(forms)()

    def model(self):
        return DECLARED + "\n".join(self.statement() for _ in range(self.pick.randrange(2, 6))) + "\nend;\n"


def printed_here(program, file):
    """What this program prints of a model, or none where it has a fault."""
    told = subprocess.run([program, "--math", file, "--check"], capture_output=True, timeout=60).stdout
    at = told.rfind(b"TRANSLATED\n")
    return (told[:at], b"") if at >= 0 else (None, told[-120:])


def printed_by_glpk(file, to):
    run = subprocess.run(["glpsol", "--math", file, "--check", "-y", to], capture_output=True, timeout=60)
    if run.returncode:
        return None, run.stdout[-200:]
    with open(to, "rb") as it:
        return it.read(), b""


def alike(line):
    """A line as both would print it, but for zeros with a sign and fractions."""
    line = re.sub(rb"-?0+(\.0*)?(?![\d.])", b"0", line).replace(b" ", b"")
    return re.sub(rb"(-?\d+)/(\d+)", lambda it: b"%g" % (int(it[1]) / int(it[2])), line)


def compare(seed, ours, theirs):
    """What a model came to."""
    if ours[0] is None and theirs[0] is None:
        return "refused by both"
    if theirs[0] is None:
        is_known = re.search(rb"- -$|cannot convert|setof{} not allowed", theirs[1], re.MULTILINE)
        return "GLPK refuses what is known" if is_known else f"{seed}: GLPK refuses: {theirs[1]}"
    if ours[0] is None:
        return f"{seed}: refused here: {ours[1]}"
    if ours[0] == theirs[0]:
        return "the same"
    for here, there in zip(ours[0].split(b"\n"), theirs[0].split(b"\n")):
        if alike(here) != alike(there):
            return f"{seed}: {here} here, {there} by GLPK"
    return "the same but for -0 and fractions"


def main():
    words = argparse.ArgumentParser(description=__doc__, formatter_class=argparse.RawDescriptionHelpFormatter)
    words.add_argument("--ours", default=PROGRAM)
    words.add_argument("--from", type=int, default=0, dest="first")
    words.add_argument("--models", type=int, default=1000)
    given, found = words.parse_args(), collections.Counter()
    with tempfile.TemporaryDirectory() as folder:
        file, to = os.path.join(folder, "model.mod"), os.path.join(folder, "printed")
        for seed in range(given.first, given.first + given.models):
            with open(file, "w", encoding="utf-8") as it:
                it.write(Writer(seed).model())
            told = compare(seed, printed_here(given.ours, file), printed_by_glpk(file, to))
            if told.startswith(f"{seed}:"):
                print(told)
                told = "other"
            found[told] += 1
    for told, count in found.most_common():
        print(f"{count:6} {told}")
    raise SystemExit(1 if found["other"] else 0)


if __name__ == "__main__":
    main()
