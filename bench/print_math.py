#!/usr/bin/env python3
"""Times what MathProg models print, with the peak memory of each run.

usage: bench/print_math.py

`glpsol --math FILE -y OUT`: 100,000 lines of one `printf` over a domain, by a `for` with two heads, and behind `solve` the numbers of
10,000 variables; `display` of a parameter of 100,000 members; and 10,000 numbers with 60 places. The bar is 100,000 lines in under
2 s. GLPK's `glpsol` runs the same texts in turn, where it is installed.
"""
import os
import shutil
import subprocess
import sys
import tempfile
import time

TOP = os.path.dirname(os.path.dirname(os.path.abspath(__file__)))
PROGRAM = os.path.join(TOP, "crates", "glpsol", "out", "glpsol")
GLPK = shutil.which("glpsol")

MODELS = (
    ("100000 lines of one printf", 'printf{i in 1..100000}: "line %d of %s: %g\\n", i, "many", i / 8;\nend;\n'),
    ("100000 lines by a for", 'for{i in 1..1000} {\n  printf{j in 1..100}: "%d times %d is %d\\n", i, j, i * j;\n}\nend;\n'),
    (
        "10000 variables behind solve",
        "var x{i in 1..10000} >= i; minimize z: sum{i in 1..10000} x[i]; solve;\n"
        'printf{i in 1..10000}: "%d %g\\n", i, x[i].val;\nend;\n',
    ),
    ("display of 100000 members", "param p{i in 1..100000} := i / 7;\ndisplay p;\nend;\n"),
    ("10000 numbers of 60 places", 'printf{i in 1..10000}: "%.60f\\n", i / 7;\nend;\n'),
)


def run(words):
    """Seconds of processor time and peak megabytes of a run, or its answer where it fails."""
    child = subprocess.Popen(words, stdout=subprocess.PIPE, stderr=subprocess.STDOUT)
    text = child.stdout.read()
    _pid, status, usage = os.wait4(child.pid, 0)
    child.returncode = os.waitstatus_to_exitcode(status)
    if child.returncode != 0:
        return None, None, text.decode(errors="replace").strip().split("\n")[-1]
    seconds = usage.ru_utime + usage.ru_stime
    return seconds, usage.ru_maxrss / 1024, ""


def main():
    if not os.path.exists(PROGRAM):
        sys.exit("build the program first: rt run in crates/glpsol, or ./glpsol")
    with tempfile.TemporaryDirectory() as folder:
        model, printed = os.path.join(folder, "m.mod"), os.path.join(folder, "y")
        for name, text in MODELS:
            with open(model, "w") as file:
                file.write(text)
            seconds, peak, fault = run([PROGRAM, "--math", model, "-y", printed])
            line = f"{name}: {fault}" if seconds is None else f"{name}: {seconds:.2f} s, {peak:.0f} MB"
            if GLPK:
                theirs, _peak, fault = run([GLPK, "-m", model, "-y", printed])
                line += f"; GLPK {fault}" if theirs is None else f"; GLPK {theirs:.2f} s"
            print(line, flush=True)


if __name__ == "__main__":
    main()
