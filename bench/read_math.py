#!/usr/bin/env python3
"""Times how MathProg texts are read and executed, with the peak memory of each run, and tries how much stack deep texts take.

usage: bench/read_math.py

Read alone, by the program of bench/measure.sh, which is built at the first run: 50,000 and 100,000 statements of one line, and
one statement of 500,000 and 1,000,000 tokens. Read and executed, by `glpsol --math FILE --check`: models with 2,000 to 100,000
columns (the bar is one of 100,000 columns and 1,000,000 entries in under 10 s and 1 GB), a sum over 1,000,000 elements, a cross of
1,000 by 1,000, 100,000 tuples looked up in a set of 100,000, `comb[60,30]` by its recursion, data sections with 1,000,000 numbers
(the bar is 3 s and 600 MB), and a chain of 400 members. With a stack of 1 MB: 50 open parentheses, and 5,000 nested heads
of `for`, which are read and then not supported.
"""
import os
import resource
import subprocess
import sys
import tempfile
import time

TOP = os.path.dirname(os.path.dirname(os.path.abspath(__file__)))
PARSER = [os.path.join(TOP, "bench", "measure.sh"), "--measure", "models"]
PROGRAM = os.path.join(TOP, "crates", "glpsol", "out", "glpsol")


def lines(count):
    return "".join(f"param p{i} := {i} + {i % 7} * 2;\n" for i in range(count)) + "end;\n"


def one_statement(tokens):
    return "param p := 1" + " + 2" * ((tokens - 6) // 2) + ";\nend;\n"


def columns_and_entries(columns, rows):
    each = columns // rows
    return (
        f"param rows := {rows}; param each := {each};\n"
        "var x{i in 0..rows * each - 1} >= 0;\n"
        "minimize z: sum{i in 0..rows * each - 1} x[i];\n"
        "s.t. r{i in 0..rows - 1}: sum{k in 0..each * 9 - 1} (1 + k mod 7) * x[(i * each + k * 11) mod (rows * each)] >= i;\n"
        "end;\n"
    )


def with_bound(declarations, bound):
    return f"{declarations}\nvar x >= 0;\nminimize z: x;\ns.t. c: x >= {bound};\nend;\n"


PAIRS = "set A := setof{i in 1..100000} (i, i mod 7);"
ONE_ROW = (
    ("a sum over 1000000 elements", with_bound("", "sum{i in 1..1000000} 1")),
    ("a cross of 1000 by 1000", with_bound("set A := 1..1000; set B := 1..1000;", "card(A cross B)")),
    ("100000 members over a set of 100000 tuples", with_bound(f"{PAIRS} param p{{(i,j) in A}} := i + j;", "sum{(i,j) in A} p[i,j]")),
)


RECURSION = (
    ("comb[60,30]", with_bound("param comb{n in 0..60, k in 0..n} := if k = 0 or k = n then 1 else comb[n-1,k-1] + comb[n-1,k];", "comb[60,30]")),
    ("a chain of 400 members", with_bound("param f{n in 0..400} := if n = 0 then 0 else f[n-1] + 1;", "f[399]")),
)


def with_data(data):
    return f"param d{{1..1000, 1..1000}} default 0;\n{with_bound('', 'd[1,1] + d[1000,1000]')[:-5]}data;\n{data}end;\n"


def number(i, j):
    return (i * 7 + j * 13) % 997 + 1


def as_tuples():
    return "param d :=\n" + "".join(f"{i} {j} {number(i, j)}\n" for i in range(1, 1001) for j in range(1, 1001)) + ";\n"


def as_table():
    head = " ".join(str(j) for j in range(1, 1001))
    rows = "".join(f"{i} {' '.join(str(number(i, j)) for j in range(1, 1001))}\n" for i in range(1, 1001))
    return f"param d : {head} :=\n{rows};\n"


def as_slices():
    rows = "".join(f"[{i},*] {' '.join(f'{j} {number(i, j)}' for j in range(1, 1001))}\n" for i in range(1, 1001))
    return f"param d :=\n{rows};\n"


DATA = (("1000000 tuples of data", as_tuples), ("a table of 1000 by 1000", as_table), ("1000 slices of 1000", as_slices))


def limit_stack(size):
    return lambda: resource.setrlimit(resource.RLIMIT_STACK, (size, size))


def run(command, stack=None):
    before = time.perf_counter()
    child = subprocess.Popen(command, stdout=subprocess.PIPE, preexec_fn=stack and limit_stack(stack))
    out = child.stdout.read().decode()
    _, status, usage = os.wait4(child.pid, 0)
    return time.perf_counter() - before, usage.ru_maxrss / 1024, status, out


def show(what, command, text, folder, tokens=None, stack=None):
    name = os.path.join(folder, "model.mod")
    with open(name, "w") as file:
        file.write(text)
    seconds, peak, status, out = run([word if word != "FILE" else name for word in command], stack)
    last = out.strip().splitlines()[-1].replace(name, "model") if out.strip() else ""
    beside = f", {peak * 1048576 / tokens:.0f} bytes a token" if tokens else ""
    print(f"{what}: {seconds:.2f} s, peak {peak:.0f} MB{beside}, status {status >> 8 or status & 127} {last[:90]}", flush=True)


def main():
    with tempfile.TemporaryDirectory() as folder:
        for count in (50_000, 100_000):
            show(f"{count} statements", PARSER + ["FILE"], lines(count), folder, count * 9 + 2)
        for count in (500_000, 1_000_000):
            show(f"one statement of {count} tokens", PARSER + ["FILE"], one_statement(count), folder, count)
        show("50 open parentheses, 1 MB of stack", PARSER + ["FILE"], "param p := " + "(" * 50 + "1" + ")" * 50 + ";\nend;\n", folder, stack=1 << 20)
        show("5000 heads of for, 1 MB of stack", PARSER + ["FILE"], "for{i in 1..1} " * 5000 + "check: 1 = 1;\nend;\n", folder, stack=1 << 20)
        for columns, rows in ((2000, 20), (10_000, 100), (100_000, 1000)):
            entries = rows * 9 * (columns // rows)
            show(f"{columns} columns, {entries} entries", [PROGRAM, "--math", "FILE", "--check"], columns_and_entries(columns, rows), folder)
        for what, text in ONE_ROW + RECURSION:
            show(what, [PROGRAM, "--math", "FILE", "--check"], text, folder)
        for what, data in DATA:
            show(what, [PROGRAM, "--math", "FILE", "--check"], with_data(data()), folder)


if __name__ == "__main__":
    sys.exit(main())
