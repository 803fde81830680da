#!/usr/bin/env python3
"""Makes each call for memory fail in turn, for five small commands, and looks at how the program ends.

usage: bench/want_of_memory.py [--ours PATH] [--most N]

The commands are one of each language, one that checks a certificate, and one with tables that are read and written. Where the K-th call
for memory fails (malloc, realloc, calloc or aligned_alloc of the C library, for which a small library is put in front by LD_PRELOAD),
alone or with all behind it, the program is to end with status 5, what it printed being the first part of what it prints else and then
`no memory` or the first part of that, or with the answer that it has else; and each file is the first part of what it is else, or isn't
made. It tells where that fails, and its status is then 1. Where a command makes more than N calls (5,000), N of them are tried, evenly
spread. PATH is the program; else it is the one that ./glpsol builds. It wants a C compiler, `cc`.

`rt try --fail-alloc K` makes the K-th allocation fail too, and looks at each access besides, but builds the program anew for each K.
"""
import argparse
import collections
import os
import shutil
import subprocess
import tempfile

TOP = os.path.dirname(os.path.dirname(os.path.abspath(__file__)))
PROGRAM = os.path.join(TOP, "crates", "glpsol", "out", "glpsol")
NO_MEMORY = b"no memory\n"

IN_FRONT = r"""
#include <errno.h>
#include <fcntl.h>
#include <stdio.h>
#include <stdlib.h>
#include <unistd.h>
extern void *__libc_malloc(size_t), *__libc_realloc(void *, size_t), *__libc_calloc(size_t, size_t), *__libc_memalign(size_t, size_t);
static unsigned long calls, first, last;
__attribute__((constructor)) static void start(void) {
    const char *a = getenv("FAIL_FIRST"), *b = getenv("FAIL_LAST");
    calls = 0; first = a ? strtoul(a, 0, 10) : 0; last = b ? strtoul(b, 0, 10) : 0;
}
__attribute__((destructor)) static void end(void) {
    const char *name = getenv("FAIL_COUNT");
    char text[32];
    int length = snprintf(text, sizeof text, "%lu\n", calls), file = name ? open(name, O_WRONLY | O_CREAT | O_TRUNC, 0644) : -1;
    if (file >= 0) { if (write(file, text, length) < 0) _exit(99); close(file); }
}
static int fails(void) { calls++; if (calls < first || calls > last) return 0; errno = ENOMEM; return 1; }
void *malloc(size_t size) { return fails() ? 0 : __libc_malloc(size); }
void *realloc(void *at, size_t size) { return fails() ? 0 : __libc_realloc(at, size); }
void *calloc(size_t count, size_t size) { return fails() ? 0 : __libc_calloc(count, size); }
void *aligned_alloc(size_t by, size_t size) { return fails() ? 0 : __libc_memalign(by, size); }
int posix_memalign(void **at, size_t by, size_t size) { if (fails()) return ENOMEM; *at = __libc_memalign(by, size); return *at ? 0 : ENOMEM; }
"""

CERTIFICATE = "cert 1\nsize 2 2\nverdict optimal\nvalue 13/5\npoint 7/5 6/5\nderived 0\ntree\nbound r1:-2/5 r2:-1/5\nend\n"
LP = "max\n x + y\nst\n 2 x + y <= 4\n x + 3 y <= 5\nend\n"
MPS = "ROWS\n N z\n L r\nCOLUMNS\n M 'MARKER' 'INTORG'\n x z -8 r 5\n y z -11 r 7\n w z -6 r 4\n v z -4 r 3\nRHS\n b r 14\nBOUNDS\n"
MPS += "".join(f" UP b {name} 1\n" for name in "xywv") + "ENDATA\n"
MODEL = "set I := 1..3; param c{i in I} := i*i; param d; var x{I} >= 0, <= 2; minimize z: sum{i in I} c[i]*x[i]; s.t. r: sum{i in I} x[i] >= d;\n"
MODEL += "solve; printf{i in I}: '%d=%g ', i, x[i].val; printf '\\n'; display x; end;\n"
TABLES = "set K; param v{K}; table t IN 'CSV' 'read.csv': K <- [k], v; var x{K} >= 0; minimize z: sum{i in K} x[i];\n"
TABLES += "s.t. r{i in K}: x[i] >= v[i]; solve; table u{i in K} OUT 'CSV' 'written.csv': i ~ k, x[i] ~ x; end;\n"
COMMANDS = {
    "MathProg, with data and a file to print to": ("--math f -d d -y y", {"f": MODEL, "d": "param d := 3;\n"}, ["y"]),
    "free MPS, with all that is written": ("--freemps f --cert c -o o -w w", {"f": MPS}, ["c", "o", "w"]),
    "CPLEX LP": ("--lp f --exact", {"f": LP}, []),
    "a certificate that is checked": ("--lp f --checkcert c", {"f": LP, "c": CERTIFICATE}, []),
    "a certificate that is migrated": ("--lp f --checkcert c --cert n", {"f": LP, "c": CERTIFICATE}, ["n"]),
    "tables": ("--math f -o o", {"f": TABLES, "read.csv": "k,v\na,3\nb,0.5\nc d,4\n"}, ["written.csv", "o"]),
}


def run(ours, library, words, folder, made, first, last):
    """The status, what is printed, what the files hold, and how many calls for memory there were."""
    for name in [*made, "count"]:
        if os.path.exists(os.path.join(folder, name)):
            os.remove(os.path.join(folder, name))
    given = {"LD_PRELOAD": library, "FAIL_FIRST": str(first), "FAIL_LAST": str(last), "FAIL_COUNT": "count"}
    done = subprocess.run([ours, *words.split()], cwd=folder, env=given, capture_output=True, timeout=60)
    held = []
    for name in [*made, "count"]:
        path = os.path.join(folder, name)
        held.append(None)
        if os.path.exists(path):
            with open(path, "rb") as file:
                held[-1] = file.read()
    return done.returncode, done.stdout, held[:-1], int(held[-1] or 0)


def is_cut(printed, whole):
    """Whether the text is the first part of the whole one, and then of the line of want of memory."""
    return any(printed[:at] == whole[:at] and NO_MEMORY.startswith(printed[at:]) for at in range(max(0, len(printed) - len(NO_MEMORY)), len(printed) + 1))


def end_of(found, good):
    code, printed, files, _ = found
    if found[:3] == good[:3]:
        return "the answer"
    first_parts = all(file is None or (whole or b"").startswith(file) for file, whole in zip(files, good[2]))
    if code == 5 and first_parts and is_cut(printed, good[1]):
        return "no memory" if printed.endswith(NO_MEMORY) else "status 5 alone"
    return "otherwise"


def main():
    words = argparse.ArgumentParser(description=__doc__, formatter_class=argparse.RawDescriptionHelpFormatter)
    words.add_argument("--ours", default=PROGRAM)
    words.add_argument("--most", type=int, default=5000)
    given, is_well = words.parse_args(), True
    with tempfile.TemporaryDirectory() as top:
        library, source = os.path.join(top, "in_front.so"), os.path.join(top, "in_front.c")
        with open(source, "w", encoding="utf-8") as file:
            file.write(IN_FRONT)
        subprocess.run([shutil.which("cc") or "cc", "-O1", "-shared", "-fPIC", "-fno-builtin", "-o", library, source], check=True)
        for name, (line, texts, made) in COMMANDS.items():
            folder = tempfile.mkdtemp(dir=top)
            for file_name, text in texts.items():
                with open(os.path.join(folder, file_name), "w", encoding="utf-8") as file:
                    file.write(text)
            good = run(os.path.abspath(given.ours), library, line, folder, made, 0, 0)
            calls, ends = good[3], collections.Counter()
            if good[0] != 0 or not calls:
                raise SystemExit(f"{name}: status {good[0]}, {calls} calls for memory, {good[1][:200]!r}")
            for number in sorted({1 + step * calls // min(calls, given.most) for step in range(min(calls, given.most))}):
                for last, how in ((number, "alone"), (2**63, "and all behind it")):
                    found = run(os.path.abspath(given.ours), library, line, folder, made, number, last)
                    end = end_of(found, good)
                    ends[end] += 1
                    if end == "otherwise":
                        is_well = False
                        print(f"  {name}: call {number} fails {how}: status {found[0]}, printed {found[1][:200]!r}, files {found[2]}")
            print(f"{name}: {calls} calls, {sum(ends.values())} runs: {dict(ends.most_common())}", flush=True)
    raise SystemExit(0 if is_well else 1)


if __name__ == "__main__":
    main()
