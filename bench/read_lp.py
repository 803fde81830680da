#!/usr/bin/env python3
"""Times how `glpsol --lp FILE --check` reads texts with many terms.

usage: bench/read_lp.py [terms ...]     (25000 50000 100000 where none are given)

Texts for each number of terms: all in the objective, in order of their columns; ten in each row, out of order; and all in one
row, of which the columns come in the objective's order, in descending order, and shuffled.
The program is the one that ./glpsol builds.
"""
import os
import random
import subprocess
import sys
import tempfile
import time

TOP = os.path.dirname(os.path.dirname(os.path.abspath(__file__)))
PROGRAM = os.path.join(TOP, "crates", "glpsol", "out", "glpsol")


def objective(count):
    lines = ["min"] + [f" + {j % 97}.{j % 10} column_{j}" for j in range(count)]
    return "\n".join(lines + ["st", " column_0 >= 1", "end"]) + "\n"


def rows(count):
    columns = max(10, count // 10)
    lines = ["min", " column_0", "st"]
    for i in range(count // 10):
        terms = [f"{'-' if k % 2 else '+'} {(i + k) % 9 + 1} column_{(i * 7 + k * 131) % columns}" for k in range(10)]
        lines.append(" row_%d: %s <= %d" % (i, " ".join(terms), i % 50))
    return "\n".join(lines + ["end"]) + "\n"


def one_row(count, order):
    lines = ["min"] + [f" + column_{j}" for j in range(count)]
    terms = [f" + {j % 97 + 1} column_{j}" for j in order]
    return "\n".join(lines + ["st", " row:"] + terms + [" >= 1", "end"]) + "\n"


def shuffled(count):
    order = list(range(count))
    random.Random(1).shuffle(order)
    return order


def texts(count):
    return [
        ("the objective", objective(count)),
        ("rows", rows(count)),
        ("one row, ascending", one_row(count, range(count))),
        ("one row, descending", one_row(count, reversed(range(count)))),
        ("one row, shuffled", one_row(count, shuffled(count))),
    ]


def main():
    subprocess.run([os.path.join(TOP, "glpsol"), "--check"], stdout=subprocess.DEVNULL)  # builds it
    counts = [int(word) for word in sys.argv[1:]] or [25000, 50000, 100000]
    with tempfile.TemporaryDirectory() as folder:
        path = os.path.join(folder, "many.lp")
        for count in counts:
            for name, text in texts(count):
                with open(path, "w") as file:
                    file.write(text)
                taken = []
                for _ in range(3):
                    start = time.perf_counter()
                    subprocess.run([PROGRAM, "--lp", path, "--check"], check=True, stdout=subprocess.DEVNULL)
                    taken.append(time.perf_counter() - start)
                print(f"{count} terms in {name}, {len(text)} bytes: read in {min(taken):.2f} s")


if __name__ == "__main__":
    main()
