#!/usr/bin/env python3
"""Changes good certificates at random, and has the program and examples/check_certificate.py judge each of them side by side.

usage: bench/changed_certificates.py [--ours PATH] [--changes N] [--from SEED]

Twenty problems: those of examples/ in free MPS, six with certificates written by hand (three of version 1 with derived rows, three of
version 2: a tree, derived rows, a split on a combination), and random ones of up to five columns and rows, at least half of them with a
tree of several nodes. What the program writes is of version 2; every second of its certificates is turned into one of version 1. Each
good certificate is changed so many times (1,000), one to three times at once: a digit or a sign, less often the kind of a weight, and a
line dropped, doubled or moved. The two checkers are to say the same of each text (that it is no certificate, which part does not hold,
or that it is accepted; where the program says that a number does not fit, the other may say anything), and what is accepted has the
verdict and the value that are true. It tells where that fails, and its status is then 1. PATH is the program; else it is the one that
./glpsol builds.
"""
import argparse
import collections
import glob
import os
import random
import re
import subprocess
import sys
import tempfile

TOP = os.path.dirname(os.path.dirname(os.path.abspath(__file__)))
PROGRAM = os.path.join(TOP, "crates", "glpsol", "out", "glpsol")
sys.path.insert(0, os.path.join(TOP, "examples"))
sys.dont_write_bytecode = True
import check_certificate  # noqa: E402
import free_mps  # noqa: E402

WHOLE = " M 'MARKER' 'INTORG'\n"
PARITY = f"ROWS\n N z\n E r\nCOLUMNS\n{WHOLE} x r 2\n y r -2\nRHS\n b r 1\nENDATA\n"
GREATEST = f"OBJSENSE MAX\nROWS\n N z\n L a\n L b\nCOLUMNS\n{WHOLE} x a -2 b 2\n y z 1 a 2\n y b 2\nRHS\n b a 3 b 5\nENDATA\n"
BY_HAND = {
    "2 x - 2 y = 1": (
        PARITY,
        "cert 1\nsize 1 2\nverdict infeasible\nderived 1\nderive 1\nsplit 0 1:1 2:-1\nlow 2 r1:1\nhigh 2 r1:-1\ntree\nempty d1:1\nend\n",
    ),
    "1 <= 3 x <= 2": (
        f"ROWS\n N z\n L r\nCOLUMNS\n{WHOLE} x r 3\nRHS\n b r 2\nRANGES\n b r 1\nENDATA\n",
        "cert 1\nsize 1 1\nverdict infeasible\nderived 1\nderive -2 1:-3\nplain r1:-1\ntree\nbranch 1 0\nempty r1:1 c1:-3\nempty c1:3 d1:1\nend\n",
    ),
    "greatest x": (
        f"OBJSENSE MAX\nROWS\n N z\n L a\n L b\nCOLUMNS\n{WHOLE} x z 1 a 2\n x b 2\n y a -2 b 2\nRHS\n b a 1 b 5\nENDATA\n",
        "cert 1\nsize 2 2\nverdict optimal\nvalue 1\npoint 1 1\nderived 1\nderive -2 1:-2\nsplit 1 1:1\nlow 2\nhigh 2 r1:-1 r2:-1\n"
        "tree\nbranch 1 1\nbound d1:1/2\nempty c1:2 d1:1\nend\n",
    ),
    "2 x - 2 y = 1 by a split": (
        PARITY,
        "cert 2\nsize 1 2\nverdict infeasible\nderived 0\ntree\nsplit 0 1:1 2:-1\nempty r1:1 s1:2\nempty r1:-1 s1:2\nend\n",
    ),
    "greatest y by a tree": (
        GREATEST,
        "cert 2\nsize 2 2\nverdict optimal\nvalue 1\npoint 0 1\nderived 0\n"
        "tree\nsplit 1 2:1\nbound s1:1\nsplit 0 1:1\nempty r1:-1 s1:2 s2:2\nempty r2:-1 s1:2 s2:2\nend\n",
    ),
    "greatest y by derived rows": (
        GREATEST,
        "cert 2\nsize 2 2\nverdict optimal\nvalue 1\npoint 0 1\nderived 2\nderive -1 1:1 2:-1\nsplit 1 1:-1 2:1\nlow 1\nhigh 1 r1:-1\n"
        "derive -1 2:-1\nsplit 1 2:1\nlow 1\nhigh 3 r2:-1 d1:2\ntree\nbound d2:1\nend\n",
    ),
}


def in_version_1(text):
    """A certificate that the program wrote, in version 1: its splits are of one column each, and their weights become weights of columns."""
    head, line, tree = text.partition("tree\n")
    made, ways = ["cert 1\n" + head.partition("\n")[2] + line], [[]]
    for node in tree.split("\n")[:-2]:
        word, *items = node.split(" ")
        way = ways.pop()
        if word == "split":
            column = items[1].partition(":")[0]
            made.append(f"branch {column} {items[0]}\n")
            ways += [[*way, f"c{column}:"], [*way, f"c{column}:-"]]  # the low side comes first
        else:
            of_columns = [way[int(item[1:].partition(":")[0]) - 1] + item.partition(":")[2] if item[0] == "s" else item for item in items]
            made.append(" ".join([word, *sorted(of_columns, key=place_in_line)]) + "\n")
    return "".join(made) + ("end\n" if line else "")


def place_in_line(item):
    return "rcd".index(item[0]), int(item[1:].partition(":")[0]), ":-" in item


def random_problem(seed):
    pick = random.Random(seed)
    names = [f"x{j}" for j in range(pick.randrange(1, 6))]
    rows = [(f"r{i}", pick.choice("LGE")) for i in range(pick.randrange(1, 6))]
    lines = [f"OBJSENSE {pick.choice(['MIN', 'MAX'])}", "ROWS", " N z"] + [f" {kind} {row}" for row, kind in rows] + ["COLUMNS"]
    whole = [name for name in names if pick.random() < 0.7]
    for name in sorted(names, key=lambda name: name in whole):
        if whole and name == min(whole):
            lines.append(WHOLE.rstrip("\n"))
        lines.append(f" {name} z {pick.choice([0, 1, 2, -1, 3, 0.5])}")
        lines += [f" {name} {row} {pick.choice([0, 1, 2, 3, -1, -2, 5, 7, 0.5])}" for row, _ in rows]
    lines += ["RHS"] + [f" b {row} {pick.randrange(-4, 15)}" for row, _ in rows]
    lines += ["RANGES"] + [f" b {row} {pick.randrange(1, 6)}" for row, _ in rows if pick.random() < 0.3]
    kinds = [" UP b {} 7", " UP b {} 4", " FR b {}", " LO b {} 1", " MI b {}"]
    lines += ["BOUNDS"] + [pick.choice(kinds).format(name) for name in names if pick.random() < 0.7]
    return "\n".join(lines + ["ENDATA"]) + "\n"


def changed(text, pick):
    """A text with one change."""
    lines, way = text.split("\n")[:-1], pick.choice(8 * ["digit", "sign"] + 2 * ["kind", "drop", "double", "move", "move"])
    at = pick.randrange(len(lines))
    if way == "digit":
        digits = [it.start() for it in re.finditer("[0-9]", text)]
        place = pick.choice(digits[3 if pick.random() < 0.9 else 0 :] or [0])
        return text[: place + (pick.random() < 0.1)] + pick.choice("0123456789") + text[place + (pick.random() < 0.9) :]
    if way == "sign":
        it = pick.choice(list(re.finditer("(?<![0-9/a-z-])-?[0-9]", text)) or [re.search("", text)])
        return text[: it.start()] + (it[0][1:] if it[0][:1] == "-" else "-" + it[0]) + text[it.end() :]
    if way == "kind":
        it = pick.choice(list(re.finditer("(?<= )[rcds](?=[0-9])", text)) or [re.search("", text)])
        return text[: it.start()] + (it[0] and pick.choice("rcds")) + text[it.end() :]
    line = lines[at]
    if way != "double":
        del lines[at]
    if way != "drop":
        lines.insert(pick.randrange(len(lines) + 1), line)
    return "".join(line + "\n" for line in lines)


def judged_here(problem, text):
    try:
        part = check_certificate.check(problem, check_certificate.read(text))
    except ValueError:
        return "certificate fault"
    return f"refused: {part}" if part else "ACCEPTED"


def judged(ours, model, file, text):
    with open(file, "w", encoding="utf-8") as it:
        it.write(text)
    told = subprocess.run([ours, "--freemps", model, "--checkcert", file], capture_output=True, timeout=60).stdout.decode().rstrip("\n")
    return told.split(":")[0] if told.startswith(("certificate fault", "overflow")) else told


def claim(text):
    """The verdict, with the value where there is one."""
    return tuple(line for line in text.split("\n") if line.startswith(("verdict", "value")))


def problems(first):
    """Twenty names with texts in free MPS and, where there is one, a certificate."""
    for path in sorted(glob.glob(os.path.join(TOP, "examples", "*.mps"))):
        with open(path, encoding="utf-8") as it:
            yield os.path.basename(path), it.read(), None
    for name, (model, certificate) in BY_HAND.items():
        yield name, model, certificate
    for seed in range(first, first + 1000):
        yield f"random {seed}", random_problem(seed), None


def try_changes(ours, name, good, model, file, count):
    """How many changed texts came to which answers, and what is wrong."""
    with open(model, encoding="utf-8") as it:
        problem = free_mps.read_mps(it.read())
    pick, found, wrong = random.Random(name), collections.Counter(), []
    answers = {good: (judged(ours, model, file, good), judged_here(problem, good))}
    if answers[good] != ("ACCEPTED", "ACCEPTED"):
        wrong.append(("the good one", good, *answers[good]))
    while sum(found.values()) < count:
        text = good
        for _ in range(pick.choice([1, 1, 2, 3])):
            text = changed(text, pick)
        if text == good or not text:
            continue
        if text not in answers:
            answers[text] = judged(ours, model, file, text), judged_here(problem, text)
        program, python = answers[text]
        if program != python and program != "overflow":
            wrong.append(("the checkers differ", text, program, python))
        if "ACCEPTED" in (program, python) and claim(text) != claim(good):
            wrong.append(("a false verdict is accepted", text, program, python))
        found[re.sub(" [0-9]+$", "", program)] += 1
    return found, len(answers) - 1, wrong


def main():
    words = argparse.ArgumentParser(description=__doc__, formatter_class=argparse.RawDescriptionHelpFormatter)
    words.add_argument("--ours", default=PROGRAM)
    words.add_argument("--changes", type=int, default=1000)
    words.add_argument("--from", type=int, default=0, dest="first")
    given, tried, single, all_found, is_well = words.parse_args(), 0, 0, collections.Counter(), True
    with tempfile.TemporaryDirectory() as folder:
        model, file = os.path.join(folder, "model"), os.path.join(folder, "certificate")
        for name, text, good in problems(given.first):
            with open(model, "w", encoding="utf-8") as it:
                it.write(text)
            if good is None:
                subprocess.run([given.ours, "--freemps", model, "--cert", file, "--nodlim", "100"], capture_output=True, timeout=60)
                if not os.path.exists(file):
                    continue  # not decided within so many splits
                with open(file, encoding="utf-8") as it:
                    good = it.read()
                os.remove(file)
                good = in_version_1(good) if tried % 2 else good
                is_single = name.startswith("random") and len(good.partition("tree\n")[2].split("\n")) < 4
                single += is_single
                if is_single and single > 4:
                    continue
            found, texts, wrong = try_changes(given.ours, name, good, model, file, given.changes)
            all_found += found
            print(f"{name}, {good.split()[6]}, {len(good)} bytes: {texts} texts, {dict(found.most_common())}", flush=True)
            for what, text, program, python in wrong[:3]:
                print(f"  {what}: program {program}, Python {python}\n{text}")
            is_well = is_well and not wrong
            tried += 1
            if tried == 20:
                break
    print(f"{tried} problems, {sum(all_found.values())} changes: {dict(all_found.most_common())}")
    raise SystemExit(0 if is_well else 1)


if __name__ == "__main__":
    main()
