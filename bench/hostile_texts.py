#!/usr/bin/env python3
"""Measures how the program answers texts that are made to be hard: long ones, and ones that go as deep as they may.

usage: bench/hostile_texts.py [--ours PATH] [--megabytes N] [word ...]     (the texts whose names have one of the words)

Long texts, of ten megabytes, are parentheses, signs, one name, digits, beginnings of comments, one line, and more of their kind, in
each place where a text is read: a model in MathProg, its data and its table, free MPS, CPLEX LP, and a certificate. Each is to get the
answer that stands beside it here, by the manual, within a second of processor time and with at most 16 bytes of memory for a byte; good
models of a million statements are measured only. Nested texts have 1,000 of a construct within one another. Deep ones stay within the
limits (50 open at a place, 400 members in a chain, a tree of 10,000 branches one below the other) and are run with a stack of 8 MB: each
is to end with an answer. It tells what fails, and its status is then 1. PATH is the program; else it is the one that ./glpsol builds.
"""
import argparse
import os
import resource
import subprocess
import tempfile
import time

TOP = os.path.dirname(os.path.dirname(os.path.abspath(__file__)))
PROGRAM = os.path.join(TOP, "crates", "glpsol", "out", "glpsol")
MOST_SECONDS, MOST_BYTES, STACK = 1.0, 16, 8 * 1024 * 1024

# What a text is: before, what is repeated, and behind; and its answer's beginning.
SYNTAX = "syntax fault: statement 1, line 1: "
MATH = {
    "parentheses": ("check: ", "(", "", SYNTAX + "TooDeep"),
    "parentheses alone": ("", "(", "", SYNTAX + "NotAStatement"),
    "braces": ("set S := ", "{", "", SYNTAX + "TooDeep"),
    "brackets": ("param p{1..1}; check: ", "p[", "", "syntax fault: statement 2, line 1: TooDeep"),
    "signs": ("param p := ", "-", "1;", SYNTAX + "TooDeep"),
    "a name": ("param ", "a", ";", "OPTIMAL"),
    "digits": ("param p := ", "1", ";", SYNTAX + "TooWide"),
    "zeros": ("param p := 0", "0", "1;", "OPTIMAL"),
    "an exponent": ("param p := 0e", "9", ";", "OPTIMAL"),
    "comments": ("", "/*", "", SYNTAX + "NotAStatement"),  # the first ends at the third slash, and a star follows
    "an open comment": ("/*", "/", "", SYNTAX + "UnendedComment"),
    "a comment": ("/*", "*", "*/ end;", "OPTIMAL"),
    "a string": ("printf '", "a", "", SYNTAX + "UnendedString"),
    "quotes": ("printf ", "''", "", SYNTAX + "Unended"),
    "blanks": ("", " ", "end;", "OPTIMAL"),
    "semicolons": ("", ";", "", SYNTAX + "NotAStatement"),
    "a sum in a line": ("param p := 0", "+1", "; check: p > 0; end;", "OPTIMAL"),
    "statements in a line": ("", "check: 1 = 1;", "end;", "OPTIMAL"),
    "heads of for": ("", "for{i in 1..1} ", "printf 'a'; end;", "aOPTIMAL"),
    "conditions": ("param p := ", "if 1 = 1 then ", "1;", SYNTAX + "TooDeep"),
    "zero bytes": ("", "\0", "", SYNTAX + "BadByte"),
}
BLOCK = "data fault: block 1, line 1: "
DATA = {
    "parentheses": ("set S := ", "(", "", BLOCK + "BadForm"),
    "brackets": ("param p := ", "[", "", BLOCK + "BadForm"),
    "signs": ("param p := ", "-", "", BLOCK + "Unended"),
    "a name": ("set S := ", "a", ";", "OPTIMAL"),
    "digits": ("param p := ", "1", ";", BLOCK + "TooWide"),
    "comments": ("", "/*", "", BLOCK + "BadForm"),
    "an open comment": ("/*", "/", "", BLOCK + "UnendedComment"),
    "a string": ("set S := '", "a", "", BLOCK + "UnendedString"),
    "blanks": ("", " ", "end;", "OPTIMAL"),
    "one element in a line": ("set S := ", "a ", ";", BLOCK + "Twice"),
}
TABLE = {
    "quotes": ("k\n", '"', "", "OPTIMAL"),
    "a field": ("k\n", "a", "\n", "OPTIMAL"),
    "digits": ("k\n", "1", "\n", "OPTIMAL"),
    "commas": ("k", ",", "\n", ("OPTIMAL", "model fault: statement 2, line 1: ")),
    "line ends": ("k", "\n", "", "OPTIMAL"),
}
MPS = {
    "parentheses": ("", "(", "", "file fault: line 1: BadSection"),
    "signs": ("ROWS\n N z\nCOLUMNS\n x z ", "-", "", "file fault: line 4: BadNumber"),
    "a name": ("ROWS\n N z\nCOLUMNS\n ", "a", " z 1\nENDATA\n", "OPTIMAL"),
    "digits": ("ROWS\n N z\nCOLUMNS\n x z ", "1", "", "file fault: line 4: TooWide"),
    "a comment": ("*", "*", "", "file fault: line 2: NoEnd"),
    "fields in a line": ("ROWS\n N z\nCOLUMNS\n x z 1", " z", "", "file fault: line 4: Twice"),
    "line ends": ("", "\n", "", "file fault: line"),
}
LP = {
    "parentheses": ("min ", "(", " >= 1", "file fault: line 1: BadLine"),
    "signs": ("min ", "-", "x\nst\nend\n", ("OPTIMAL", "UNBOUNDED")),
    "a name": ("min ", "a", "\nst\nend\n", "OPTIMAL"),
    "digits": ("min ", "1", "x\nst\nend\n", "file fault: line 1: TooWide"),
    "a comment": ("\\", "\\", "", "file fault: line 2: BadLine"),
    "terms of the objective in a line": ("min ", "+x", "\nst\nend\n", "OPTIMAL"),
    "terms of a row in a line": ("min x\nst\n", "+x", " >= 1\nend\n", "OPTIMAL"),
    "line ends": ("", "\n", "", "file fault: line"),
}
CERTIFICATE = {
    "parentheses": ("", "(", "", "certificate fault: line 1: BadLine"),
    "digits": ("cert 1\nsize 0 1\nverdict optimal\nvalue ", "1", "", "certificate fault: line 4: TooWide"),
    "signs": ("cert 1\nsize 0 1\nverdict optimal\nvalue ", "-", "", "certificate fault: line 4: BadLine"),
    "numbers in a line": ("cert 1\nsize 0 1\nverdict optimal\nvalue 2\npoint 2", " 2", "\n", "certificate fault: line 5: BadLine"),
    "weights in a line": ("cert 1\nsize 0 1\nverdict infeasible\nderived 0\ntree\nempty", " c1:1", "\n", "certificate fault: line 6: BadLine"),
    "branches": ("cert 1\nsize 0 1\nverdict infeasible\nderived 0\ntree\n", "branch 1 0\n", "", "certificate fault: line"),
}
# These are good models, of many statements; they have no bars.
MODELS = ("a sum in a line", "statements in a line", "heads of for")
ONE = "ROWS\n N z\nCOLUMNS\n x z 1\nENDATA\n"
PLACES = {
    "MathProg": (MATH, "--math hostile", {}),
    "data": (DATA, "--math model -d hostile", {"model": "set S; param p default 0; end;"}),
    "table": (TABLE, "--math model", {"model": "set K; table t IN 'CSV' 'hostile': K <- [k]; end;"}),
    "free MPS": (MPS, "--freemps hostile", {}),
    "CPLEX LP": (LP, "--lp hostile", {}),
    "certificate": (CERTIFICATE, "--freemps model --checkcert hostile", {"model": ONE}),
}
NESTED = {
    "parentheses": ("check: ", "(", "1", ")", "; end;"),
    "braces": ("set S := ", "{", "1", "}", "; end;"),
    "brackets": ("param p{1..1} default 1; check: ", "p[", "1", "]", " = 1; end;"),
    "if": ("param p := ", "if 1 = 1 then ", "1", "", "; check: p = 1; end;"),
    "else": ("param p := ", "if 1 = 2 then 1 else ", "1", "", "; check: p = 1; end;"),
    "for": ("", "for{i in 1..1} {", "printf 'a';", "}", " end;"),
    "sum": ("param p := ", "sum{i in 1..1} ", "1", "", "; check: p = 1; end;"),
    "forall": ("check: ", "forall{i in 1..1} ", "1 = 1", "", "; end;"),
    "signs": ("param p := ", "-", "1", "", "; check: p <> 0; end;"),
    "not": ("check: 1 = 1 or ", "not ", "1 = 1", "", "; end;"),
    "powers": ("param p := ", "1 ** ", "1", "", "; check: p = 1; end;"),
    "functions": ("param p := ", "abs(", "1", ")", "; check: p = 1; end;"),
}
# Chains of 400 members: what stands around a demand of the member before, at each member.
AROUND = {
    "nothing": "{}",
    "a sum": "({} + 0)",
    "parentheses": "(({}))",
    "if": "(if 1 = 1 then {} else 0)",
    "abs": "abs({})",
    "max": "max(0, {})",
    "sum": "(sum{{i in 1..1}} ({}))",
    "min": "(min{{i in 1..1}} ({}))",
}


def run(ours, words, folder, stack=None):
    """The status, what is printed, processor time and peak memory of a run."""
    limit = (lambda: resource.setrlimit(resource.RLIMIT_STACK, (stack, resource.getrlimit(resource.RLIMIT_STACK)[1]))) if stack else None
    with open(os.path.join(folder, "told"), "wb+") as told:
        child = subprocess.Popen([ours, *words.split()], cwd=folder, stdout=told, stderr=subprocess.DEVNULL, preexec_fn=limit)
        _, status, usage = os.wait4(child.pid, 0)
        child.returncode = os.waitstatus_to_exitcode(status)
        told.seek(0)
        return child.returncode, told.read(200).decode("utf-8", "replace"), usage.ru_utime + usage.ru_stime, usage.ru_maxrss * 1024


def write(folder, name, before, part, times, behind):
    """Writes a text piece by piece, so that this program stays small, and tells how long it is."""
    at_once = max(1, 100_000 // len(part))
    with open(os.path.join(folder, name), "w", encoding="utf-8", newline="") as file:
        file.write(before)
        for done in range(0, times, at_once):
            file.write(part * min(at_once, times - done))
        file.write(behind)
    return os.path.getsize(os.path.join(folder, name))


def tell(name, size, ended, wanted, limits):
    """Prints a line, and says whether all is well."""
    code, told, seconds, memory = ended
    is_right = code in (0, 2, 5) and told.startswith(wanted)
    faults = ["another answer"] * (not is_right)
    if limits:
        faults += ["time"] * (seconds > MOST_SECONDS) + ["memory"] * (memory > MOST_BYTES * size)
    first = told.split("\n")[0][:60]
    of_text = f"{memory / size:6.1f} bytes a byte" if limits else f"{memory / 1e6:6.1f} MB"
    print(f"{name:38} {size:>10,} bytes  status {code:3}  {seconds:5.2f} s  {of_text}  {first}{'  OVER: ' + ', '.join(faults) if faults else ''}", flush=True)
    return not faults


def long_texts(ours, folder, size, is_asked):
    is_well = True
    for place, (texts, words, files) in PLACES.items():
        for name, text in files.items():
            with open(os.path.join(folder, name), "w", encoding="utf-8") as file:
                file.write(text)
        for name, (before, part, behind, wanted) in texts.items():
            if is_asked(f"{place}: {name}"):
                length = write(folder, "hostile", before, part, size // len(part), behind)
                is_well &= tell(f"{place}: {name}", length, run(ours, words, folder), wanted, name not in MODELS)
    return is_well


def nested_texts(ours, folder, is_asked):
    is_well = True
    for name, (before, opening, inside, closing, behind) in NESTED.items():
        for times in (48, 1000):
            if is_asked(f"{times} nested: {name}"):
                text = before + opening * times + inside + closing * times + behind
                length = write(folder, "hostile", text, "\n", 1, "")
                number = 2 if name == "brackets" else 1
                wanted = f"syntax fault: statement {number}, line 1: TooDeep" if times == 1000 else "aOPTIMAL" if name == "for" else "OPTIMAL"
                is_well &= tell(f"{times} nested: {name}", length, run(ours, "--math hostile", folder, STACK), wanted, False)
    return is_well


def deep_texts(ours, folder, is_asked):
    is_well = True
    for name, around in AROUND.items():
        for times in (1, 3, 7, 15) if name != "nothing" else (1,):
            demand = "f[n-1]"
            for _ in range(times):
                demand = around.format(demand)
            if is_asked(f"chain of 400: {times} {name}"):
                text = f"param f{{n in 0..399}} := if n = 0 then 1 else {demand}; printf '%d', f[399]; end;"
                length = write(folder, "hostile", text, "\n", 1, "")
                ended = run(ours, "--math hostile", folder, STACK)
                is_well &= tell(f"chain of 400: {times} {name}", length, ended, ("1OPTIMAL", "no memory"), False)
    tree = "cert 1\nsize 0 1\nverdict infeasible\nderived 0\ntree\n"
    if is_asked("a tree, one node below the other"):
        with open(os.path.join(folder, "model"), "w", encoding="utf-8") as file:
            file.write("ROWS\n N z\nCOLUMNS\n M 'MARKER' 'INTORG'\n x z 1\nBOUNDS\n LO b x 2\n UP b x 1\nENDATA\n")
        length = write(folder, "hostile", tree, "branch 1 0\n", 10_000, "empty c1:1 c1:-1\n" * 10_001 + "end\n")
        is_well &= tell("a tree, one node below the other", length, run(ours, "--freemps model --checkcert hostile", folder, STACK), "ACCEPTED", True)
    return is_well


def main():
    words = argparse.ArgumentParser(description=__doc__, formatter_class=argparse.RawDescriptionHelpFormatter)
    words.add_argument("--ours", default=PROGRAM)
    words.add_argument("--megabytes", type=int, default=10)
    words.add_argument("words", nargs="*")
    given, start = words.parse_args(), time.monotonic()
    ours = os.path.abspath(given.ours)

    def is_asked(name):
        return not given.words or any(word in name for word in given.words)

    with tempfile.TemporaryDirectory() as folder:
        is_well = long_texts(ours, folder, given.megabytes * 1_000_000, is_asked)
        is_well &= nested_texts(ours, folder, is_asked)
        is_well &= deep_texts(ours, folder, is_asked)
    print(f"{time.monotonic() - start:.0f} s; {'all as wanted' if is_well else 'not all as wanted'}")
    raise SystemExit(0 if is_well else 1)


if __name__ == "__main__":
    main()
