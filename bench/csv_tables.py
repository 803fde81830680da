#!/usr/bin/env python3
"""Times models that read and write a CSV table of 100,000 records of five fields, with the peak memory of each run, beside glpsol.

usage: bench/csv_tables.py [--only-ours]

Three models: one with the table's name alone (what the program takes without it), one that reads the table into a set and four
parameters, and one that writes as large a table. The bar is that a table is read in under 1 s and written in under 1 s. glpsol, where
it is installed, runs the same models.
"""
import os
import shutil
import subprocess
import sys
import tempfile
import time

TOP = os.path.dirname(os.path.dirname(os.path.abspath(__file__)))
PROGRAM = os.path.join(TOP, "crates", "glpsol", "out", "glpsol")
RECORDS = 100_000

HEAD = "set K; param a{K}; param b{K}; param c{K} symbolic; param d{K};\n"
READ = 'table t IN "CSV" "read.csv" : K <- [k], a, b, c, d;\n'
WRITE = f'table t{{i in 1..{RECORDS}}} OUT "CSV" "written.csv" : i ~ k, i*3 ~ a, i mod 97 ~ b, "name " & i ~ c, i*i mod 1009 ~ d;\n'
TAIL = "var x >= 0;\nminimize z: x;\ns.t. r: x >= 1;\nend;\n"
MODELS = (("no table", TAIL), ("read", HEAD + READ + TAIL), ("written", WRITE + TAIL))


def table():
    rows = (f"{i},{i * 3},{i % 97},name {i},{i * i % 1009}\n" for i in range(1, RECORDS + 1))
    return "k,a,b,c,d\n" + "".join(rows)


def run(words, folder):
    before = time.monotonic()
    child = subprocess.Popen(words, cwd=folder, stdout=subprocess.DEVNULL, stderr=subprocess.DEVNULL)
    _, status, used = os.wait4(child.pid, 0)
    return os.waitstatus_to_exitcode(status), time.monotonic() - before, used.ru_maxrss * 1024


def main():
    peers = [("ours", PROGRAM)]
    glpk = shutil.which("glpsol")
    if glpk and "--only-ours" not in sys.argv[1:]:
        peers.append(("glpsol", glpk))
    with tempfile.TemporaryDirectory() as folder:
        size = len(table())
        with open(os.path.join(folder, "read.csv"), "w", encoding="utf-8") as file:
            file.write(table())
        print(f"a table of {RECORDS:,} records, {size:,} bytes")
        for name, text in MODELS:
            with open(os.path.join(folder, "model.mod"), "w", encoding="utf-8") as file:
                file.write(text)
            for peer, program in peers:
                code, seconds, memory = min((run([program, "--math", "model.mod"], folder) for _ in range(3)), key=lambda it: it[1])
                print(f"{name:10} {peer:7} status {code}  {seconds:6.2f} s  {memory / 1e6:7.1f} MB  {memory / size:5.1f} bytes a byte")


if __name__ == "__main__":
    main()
