#!/usr/bin/env python3
"""Tells the peak memory of `glpsol --check` on texts of 64 MB with short tokens, and how many bytes that are a byte of text.

usage: bench/read_memory.py [text ...]     (all of those below where none are named)

Each text declares a problem within the limits (1,000,000 columns, 1,000,000 rows, 20,000,000 entries):
  lp-terms          CPLEX LP, a line a row of 20 terms like `+x012345`
  lp-bytes          CPLEX LP, tokens of one byte each (`+x`), 100 terms a line: few entries
  lp-one-line       CPLEX LP, the same tokens in one line
  lp-short-lines    CPLEX LP, a token a line
  mps-pairs         free MPS, names of four letters, two entries a line, about 20 in each row, which grow side by side
  mps-entries       the same with an entry a line
  mps-few-rows      the same with two entries a line in 100 rows
  mps-short-lines   free MPS, comments of one byte
  math-tuples       MathProg, a data section of numbers with two subscripts each
  math-table        MathProg, a data section that is a table of 3,000 columns
  csv               MathProg, a CSV table of five fields that is read into a set and parameters
  set               MathProg, a set of 5,000,000 numbers: its seconds and its memory alone
The bars: 12 bytes a byte for the linear programs, 16 for data, 40 for the table; the set in under 6 s.
The program is the one that ./glpsol builds; PROGRAM in the environment names another, which gets the file's name alone.
"""
import os
import string
import subprocess
import sys
import tempfile

TOP = os.path.dirname(os.path.dirname(os.path.abspath(__file__)))
SIZE = 64_000_000
COLUMNS = 1_000_000
ROWS = 1_000_000
ENTRIES = 20_000_000
NAME_BYTES = string.digits + string.ascii_letters


def filled(head, line, tail, count):
    """The lines 0, 1, .. that stay within the size and the count, between head and tail."""
    lines, size = [head], len(head) + len(tail)
    for i in range(count):
        more = line(i)
        size += len(more)
        if size > SIZE:
            break
        lines.append(more)
    return "".join(lines + [tail])


def short_name(number):
    """A name of four letters or digits."""
    return "".join(NAME_BYTES[number // 62**place % 62] for place in (3, 2, 1, 0))


def lp_terms():
    def row(i):
        return "".join(f"+x{(i * 20 + k * 4999) % COLUMNS:06}" for k in range(20)) + ">=1\n"

    return filled("min\nx000000\nst\n", row, "end\n", ENTRIES // 20)


def lp_bytes():
    return filled("min\nx\nst\n", lambda i: "+x" * 100 + "\n", "+x>=1\nend\n", SIZE)


def lp_one_line():
    return filled("min\nx\nst\n", lambda i: "+x" * 100, ">=1\nend\n", SIZE)


def lp_short_lines():
    return filled("min\nx\nst\n", lambda i: "+\nx\n" * 100, ">=1\nend\n", SIZE)


def mps_entries(rows, at_once):
    """A text with so many rows, and so many entries a line; each column has 20."""
    names = [short_name(i) for i in range(rows)]
    head = "ROWS\n N c\n" + "".join(f" G {name}\n" for name in names) + "COLUMNS\n"

    def column(j):
        pairs = [f" {names[(j * 20 + k) % rows]} 1" for k in range(20)]
        lines = ["".join(pairs[k : k + at_once]) for k in range(0, 20, at_once)]
        return "".join(f" {short_name(j)}{line}\n" for line in lines)

    return filled(head, column, "ENDATA\n", ENTRIES // 20)


def mps_short_lines():
    return filled("ROWS\n N c\nCOLUMNS\n x c 1\n", lambda i: "*\n" * 100, "ENDATA\n", SIZE)


HEAD = "param d{i in 1..N, j in 1..N} default 0;\nvar x >= 0;\nminimize z: x;\ns.t. r: x >= d[1,1];\n"


def math_tuples():
    return filled(HEAD.replace("N", "10000") + "data;\nparam d :=\n", lambda i: f"{i // 3000 + 1} {i % 3000 + 1} {i % 97}\n", ";\nend;\n", SIZE)


def math_table():
    head = " ".join(str(j) for j in range(1, 3001))
    numbers = " ".join(str(j % 97) for j in range(1, 3001))
    return filled(HEAD.replace("N", "10000") + f"data;\nparam d : {head} :=\n", lambda i: f"{i + 1} {numbers}\n", ";\nend;\n", 10_000)


def csv():
    return filled("k,a,b,c,d\n", lambda i: f"{i},{i * 3},{i % 97},name {i},{i % 1009}\n", "", SIZE)


def a_set():
    return "set S := 1..5000000;\ncheck: card(S) = 5000000;\nend;\n"


TABLE = (
    "set K; param a{K}; param b{K}; param c{K} symbolic; param d{K};\n"
    'table t IN "CSV" "read.csv" : K <- [k], a, b, c, d;\n'
    "var x >= 0;\nminimize z: x;\ns.t. r: x >= 1;\nend;\n"
)

TEXTS = {
    "lp-terms": ("--lp", lp_terms),
    "lp-bytes": ("--lp", lp_bytes),
    "lp-one-line": ("--lp", lp_one_line),
    "lp-short-lines": ("--lp", lp_short_lines),
    "mps-pairs": ("--freemps", lambda: mps_entries(ROWS, 2)),
    "mps-entries": ("--freemps", lambda: mps_entries(ROWS, 1)),
    "mps-few-rows": ("--freemps", lambda: mps_entries(100, 2)),
    "mps-short-lines": ("--freemps", mps_short_lines),
    "math-tuples": ("--math", math_tuples),
    "math-table": ("--math", math_table),
    "csv": ("--math", csv),
    "set": ("--math", a_set),
}


def run(words, folder):
    """The peak memory in kB and the seconds of processor time of a command, and what it wrote."""
    child = subprocess.Popen(words, cwd=folder, stdout=subprocess.PIPE, text=True)
    written = child.stdout.read()
    _, status, usage = os.wait4(child.pid, 0)
    child.returncode = os.waitstatus_to_exitcode(status)
    return usage.ru_maxrss, usage.ru_utime + usage.ru_stime, written.split("\n")[0]


def main():
    program = os.environ.get("PROGRAM")
    if program is None:
        subprocess.run([os.path.join(TOP, "glpsol"), "--check"], stdout=subprocess.DEVNULL)  # builds it
    with tempfile.TemporaryDirectory() as folder:
        for name in sys.argv[1:] or TEXTS:
            option, text_of = TEXTS[name]
            text = text_of()
            path = os.path.join(folder, "read.csv" if name == "csv" else "text")
            with open(path, "w") as file:
                file.write(text)
            if name == "csv":
                path = os.path.join(folder, "text")
                with open(path, "w") as file:
                    file.write(TABLE)
            built = os.path.join(TOP, "crates", "glpsol", "out", "glpsol")
            words = [program, path] if program else [built, option, path, "--check"]
            peak, seconds, written = run(words, folder)
            print(f"{name}: {len(text)} bytes, {seconds:.2f} s, {peak / 1000:.0f} MB, {peak * 1024 / len(text):.1f} bytes a byte ({written})")


if __name__ == "__main__":
    main()
