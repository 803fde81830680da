#!/usr/bin/env python3
"""Writes the relaxations of GLPK's examples as free MPS files, for bench/linear_programs.py.

usage: bench/relaxations.py FOLDER [--least NONZEROS] [--most NONZEROS] [--from EXAMPLES]

The examples are those of Debian's glpk-utils (models in MathProg and CPLEX LP, and MPS files), which GLPK's `glpsol`
reads and writes again by `--wfreemps`. A relaxation is the same program with each integer column continuous. It keeps
those with 100 to 8,000 nonzeros in their rows, and prints the name and size of each.
"""
import argparse
import os
import re
import shutil
import subprocess
import sys

EXAMPLES = "/usr/share/doc/glpk-utils/examples"
READS = {".mod": ["--math"], ".lp": ["--lp"], ".mps": ["--mps"]}
RELAXED = {"BV": "UP", "LI": "LO", "UI": "UP"}


def relaxed(text):
    """The free MPS text without integer columns: GLPK marks them by lines, and notes a column without entries behind it."""
    lines = []
    for line in text.split("\n"):
        if "'MARKER'" in line or line.startswith("*"):
            continue
        fields = line.split("$")[0].split()
        if line.startswith(" ") and fields and fields[0] in RELAXED:
            value = fields[3:] or ["1"]
            line = " " + " ".join([RELAXED[fields[0]], *fields[1:3], *value])
        lines.append(re.sub(r" *\$.*$", "", line))
    return "\n".join(lines)


def nonzeros(text):
    """How many numbers the columns have, those of the objective too."""
    columns = text.split("\nCOLUMNS\n")[1].split("\nRHS\n")[0]
    return sum((len(line.split()) - 1) // 2 for line in columns.split("\n"))


def written(path, folder):
    """The example as GLPK writes it, or none where it does not: an example without a data section, say."""
    name, kind = os.path.splitext(os.path.basename(path))
    target = os.path.join(folder, name + ".mps")
    words = [shutil.which("glpsol"), *READS[kind], path, "--check", "--wfreemps", target]
    try:
        done = subprocess.run(words, cwd=folder, capture_output=True, timeout=60)
    except subprocess.TimeoutExpired:
        done = None
    return target if done and not done.returncode and os.path.exists(target) else None


def main():
    asked = argparse.ArgumentParser()
    asked.add_argument("folder")
    asked.add_argument("--least", type=int, default=100)
    asked.add_argument("--most", type=int, default=8000)
    asked.add_argument("--from", dest="examples", default=EXAMPLES)
    words = asked.parse_args()
    if not shutil.which("glpsol"):
        sys.exit("GLPK's glpsol is not there: install Debian's glpk-utils")
    os.makedirs(words.folder, exist_ok=True)
    taken = set()
    for name in sorted(os.listdir(words.examples)):
        stem, kind = os.path.splitext(name)
        if kind not in READS or stem in taken:  # (some models are there in two formats)
            continue
        taken.add(stem)
        target = written(os.path.join(words.examples, name), words.folder)
        if not target:
            continue
        with open(target) as file:
            text = relaxed(file.read())
        size = nonzeros(text)
        if not words.least <= size <= words.most:
            os.remove(target)
            continue
        with open(target, "w") as file:
            file.write(text)
        print(f"{os.path.basename(target)} {size}")


if __name__ == "__main__":
    main()
