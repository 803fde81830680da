#!/usr/bin/env python3
"""Times how `glpsol --checkcert FILE` reads long certificates, and checks trees, in both versions.

usage: bench/read_certificates.py [megabytes ...]     (1 4 16 where none are given)

All of these certificates prove that a problem has no feasible point: those of so many megabytes, which are a tree with many weights in
each leaf, or long derived rows; and a balanced tree and a chain of 10,001 nodes. With a model of another size the check ends at the
first part: that is the reading. A tree is checked with its own model too, and what that takes more is the check. The program is the one
that ./glpsol builds; the time of starting it is measured with a short certificate. All times are the least of five. The bars are 40 MB a
second, 10 ms for the balanced tree and 500 for the chain.
"""
import os
import subprocess
import sys
import tempfile
import time
from fractions import Fraction

TOP = os.path.dirname(os.path.dirname(os.path.abspath(__file__)))
PROGRAM = os.path.join(TOP, "crates", "glpsol", "out", "glpsol")
OTHER = "NAME one\nROWS\n N cost\nCOLUMNS\n x cost 1\nENDATA\n"
WHOLE = " M 'MARKER' 'INTORG'\n"
# 1 <= 3 x <= 2
THIRD = f"ROWS\n N cost\n L r\nCOLUMNS\n{WHOLE} x r 3\nRHS\n b r 2\nRANGES\n b r 1\nENDATA\n"
# columns that are at most 0, and for each a row that says that it is at least 1
WIDE = "ROWS\n N cost\n{}COLUMNS\n{}{}RHS\n{}BOUNDS\n{}ENDATA\n".format(
    "".join(f" G r{i}\n" for i in range(1, 101)),
    WHOLE,
    "".join(f" x{i} r{i} 1\n" for i in range(1, 101)),
    "".join(f" b r{i} 1\n" for i in range(1, 101)),
    "".join(f" UP b x{i} 0\n" for i in range(1, 101)),
)
NUMBERS = [(i, Fraction(i % 7 + 1, i % 7 + 2)) for i in range(1, 101)]


def items(kind, numbers, factor=1):
    return "".join(f" {kind}{i}:{factor * number}" for i, number in numbers)


def certificate(version, sizes, derived, nodes):
    return f"cert {version}\nsize {sizes}\nverdict infeasible\nderived {len(derived)}\n{''.join(derived)}tree\n{''.join(nodes)}end\n"


def branch(version, column, at):
    return f"branch {column} {at}\n" if version == 1 else f"split {at} {column}:1\n"


def leaves_text(version, size):
    """A chain of branches for WIDE, each leaf with weights of all rows and columns, of about `size` bytes."""
    leaf = f"empty{items('r', NUMBERS)}{items('c', NUMBERS, -1)}\n"
    half = NUMBERS[0][1] / 2
    named = f"empty{items('r', NUMBERS)}{items('c', [(1, half), *NUMBERS[1:]], -1)} s{{}}:{half}\n"
    count = max(1, size // (len(leaf) + len("branch 1 -678\n")))
    sides = [branch(version, 1, -i) + (leaf if version == 1 else named.format(i + 1)) for i in range(count)]
    return certificate(version, "100 100", [], [*sides, leaf])


def derived_text(version, size):
    """Derived rows for WIDE with long forms and weights, in version 2 each by half of the one before it, of about `size` bytes."""
    head = f"derive {sum(number for _, number in NUMBERS)}{items('', NUMBERS)}\n"
    rows = [f"{head}plain{items('r', NUMBERS)}\n"]
    for i in range(1, max(2, size // len(rows[0]))):
        rows.append(rows[0] if version == 1 else f"{head}plain{items('r', NUMBERS, Fraction(1, 2))} d{i}:1/2\n")
    return certificate(version, "100 100", rows, [f"empty{items('c', NUMBERS, -1)} d{len(rows)}:1\n"])


def tree_text(version, is_chain, leaves):
    """A tree of so many leaves for THIRD: on the low side of each branch there is one of its leaves, or half of them."""
    # of a side: its first leaf, where x is at least so much, how many there are, how many branches are above it, and which of these
    # bounds x from above (the last low side) and from below (the first high side is enough), as 1, 2 .. from the root
    nodes, waiting = [], [(0, leaves, 0, 0, 0)]
    while waiting:
        first, count, depth, above, below = waiting.pop()
        if count > 1:
            low = 1 if is_chain else count // 2
            nodes.append(branch(version, 1, first + low - 1))
            waiting.append((first + low, count - low, depth + 1, above, below or depth + 1))
            waiting.append((first, low, depth + 1, depth + 1, below))
        elif first == 0:
            nodes.append("empty r1:1 c1:-3\n" if version == 1 else f"empty r1:1 s{above}:3\n")
        else:
            nodes.append("empty r1:-1 c1:3\n" if version == 1 else f"empty r1:-1 s{below}:3\n")
    return certificate(version, "1 1", [], nodes)


def seconds(folder, model, text, answer):
    """The least time of checking this text for this model."""
    for name, content in (("model", model), ("certificate", text)):
        with open(os.path.join(folder, name), "w") as file:
            file.write(content)
    words, times = [PROGRAM, "--freemps", os.path.join(folder, "model"), "--checkcert", os.path.join(folder, "certificate")], []
    for _ in range(5):
        start = time.perf_counter()
        done = subprocess.run(words, stdout=subprocess.PIPE, text=True)
        times.append(time.perf_counter() - start)
        assert done.stdout == answer, done.stdout
    return min(times)


def main():
    subprocess.run([os.path.join(TOP, "glpsol"), "--check"], stdout=subprocess.DEVNULL)  # builds it
    sizes = [int(word) * 1024 * 1024 - 4096 for word in sys.argv[1:] or (1, 4, 16)]
    with tempfile.TemporaryDirectory() as folder:
        start = seconds(folder, OTHER, leaves_text(1, 0), "refused: size\n")
        for version in (1, 2):
            for size in sizes:
                for name, text_of in (("many weights", leaves_text), ("derived rows", derived_text)):
                    text = text_of(version, size)
                    taken = seconds(folder, OTHER, text, "refused: size\n") - start
                    print(f"version {version}, {name}, {len(text)} bytes: read in {taken:.2f} s, {len(text) / taken / 1e6:.0f} MB a second")
            for name, is_chain in (("a balanced tree", False), ("a chain", True)):
                text = tree_text(version, is_chain, 5001)
                reading = seconds(folder, OTHER, text, "refused: size\n")
                taken = 1000 * (seconds(folder, THIRD, text, "ACCEPTED\n") - reading)
                print(f"version {version}, {name} of 10001 nodes: checked in {taken:.1f} ms")


if __name__ == "__main__":
    main()
