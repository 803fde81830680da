#!/usr/bin/env python3
"""Times how `glpsol --freemps FILE --check` reads texts with many columns, and how it solves them.

usage: bench/read_mps.py [columns ...]     (25000 50000 100000 where none are given)

Each text has a cost and two bounds for each column. The program is the one that ./glpsol builds.
"""
import os
import subprocess
import sys
import tempfile
import time

TOP = os.path.dirname(os.path.dirname(os.path.abspath(__file__)))


def text_of(count):
    lines = ["NAME many", "ROWS", " N cost", "COLUMNS"]
    lines += [f" column_{j} cost {j % 97 - 48}.{j % 10}" for j in range(count)]
    lines.append("BOUNDS")
    for j in range(count):
        lines.append(f" LO b column_{j} {j % 13}")
        lines.append(f" UP b column_{j} {j % 13 + j % 7}")
    lines.append("ENDATA")
    return "\n".join(lines) + "\n"


def seconds(words):
    start = time.perf_counter()
    subprocess.run(words, check=True, stdout=subprocess.DEVNULL)
    return time.perf_counter() - start


def main():
    counts = [int(word) for word in sys.argv[1:]] or [25000, 50000, 100000]
    subprocess.run([os.path.join(TOP, "glpsol"), "--check"], stdout=subprocess.DEVNULL)
    program = os.path.join(TOP, "crates", "glpsol", "out", "glpsol")
    for count in counts:
        with tempfile.TemporaryDirectory() as folder:
            path = os.path.join(folder, "many.mps")
            with open(path, "w") as file:
                file.write(text_of(count))
            size = os.path.getsize(path)
            read = min(seconds([program, "--freemps", path, "--check"]) for _ in range(3))
            certificate = os.path.join(folder, "certificate")
            solved = min(seconds([program, "--freemps", path, "--cert", certificate]) for _ in range(3))
            print(f"{count} columns, {size} bytes: read in {read:.2f} s, solved with its certificate in {solved:.2f} s")


if __name__ == "__main__":
    main()
