#!/usr/bin/env python3
"""Tells what each function of a crate costs to prove, from the files that the check keeps.

usage: bench/costs.py [--shown N] [--function N] [--crate N] NAME ..   seconds by function, those above --shown (5)
       bench/costs.py --size [--shown N] NAME ..                       megabytes of code by function, those above --shown (1)

Seconds are those between the files that the check wrote one after another. They are of the clock, so they want a check from nothing in one
process with nothing else running: in crates/NAME remove out/incremental, then `rt check --jobs 1`. The status is 1 where a function is above
--function (60 s) or a crate above --crate (360 s). `code` is the part that grows with what a function owns by value and with its
exits, `proof` the search for its goals, and what belongs to no function stands in parentheses.

The size of what is kept of a function's code tells its part of the time without a clock, some two seconds a megabyte, so that two
versions are compared while other work runs.
"""
import collections
import os
import re
import sys

PROOF = {"Proof", "Answers", "Invariants"}
# longer than any function takes: the check stood still, or began again
PAUSE = 1800


def stop(why):
    print(f"costs.py: {why}", file=sys.stderr)
    sys.exit(2)


def written(name):
    """The files that the latest check of a crate wrote, in their order: time, size and name of the module."""
    top = f"crates/{name}/out/incremental"
    if not os.path.isdir(f"crates/{name}"):
        stop(f"there is no crate {name}: run it at the top of the repository")
    if not os.path.isdir(top):
        stop(f"nothing is kept in {top}: run `rt check --jobs 1` in crates/{name}")
    found = collections.defaultdict(list)
    for at, _, files in os.walk(top):
        for file in files:
            if file.endswith(".oantt"):
                told = os.stat(f"{at}/{file}")
                found[at].append((told.st_mtime, told.st_size, re.sub(r"(\.decls)?\.oantt$", "", file)))
    if not found:
        stop(f"nothing is kept in {top}: run `rt check --jobs 1` in crates/{name}")
    return sorted(max(found.values(), key=max))


def parts_of(files):
    """Of each file the owner, the kind of the module, the seconds to write it, and its size."""
    paths = []
    for _, _, module in files:
        found = re.match(r"Rattle-\w+?-(specs|proofs)\.(.*)$", module)
        library, path = (found[1], found[2]) if found else ("interface", "")
        owner, _, last = path.rpartition(".")
        paths.append((library, owner, last))
    functions = {owner for library, owner, last in paths if library == "proofs" and is_code(last)}
    before = files[0][0]
    for (library, owner, last), (time, size, _) in zip(paths, files):
        is_function = library == "proofs" and owner in functions
        yield owner if is_function else f"({library})", last if is_function else "", time - before, size
        before = time


def is_code(last):
    return last == "Code" or last.startswith("Lts")


def kind_of(last):
    return "code" if last.startswith("Lts") else "proof" if last in PROOF else "rest"


def seconds(name, words):
    """Prints the seconds of a crate; whether something of it is above its bar."""
    found, dearest = collections.defaultdict(collections.Counter), collections.defaultdict(collections.Counter)
    files = written(name)
    for owner, last, time, _ in parts_of(files):
        if time > PAUSE:
            print(f"{name}: the check stood still for {time / 60:.0f} minutes at {owner}: this is no check from nothing")
        found[owner][kind_of(last)] += time
        if last.startswith("Lts-"):
            dearest[owner][last[4:]] += time
    total = sum(sum(it.values()) for it in found.values())
    is_over = total > words["crate"]
    count = sum(not it.startswith("(") for it in found)
    print(f"{name}: {total:.0f} s, {count} functions{', above the bar' if is_over else ''}")
    for owner, it in sorted(found.items(), key=lambda it: -sum(it[1].values())):
        whole = sum(it.values())
        if whole < words["shown"]:
            break
        is_above = whole > words["function"] and not owner.startswith("(")
        is_over = is_over or is_above
        more = "; ".join(f"{part} {time:.1f}" for part, time in dearest[owner].most_common(3) if time >= 0.5)
        told = f"code {it['code']:.1f} proof {it['proof']:.1f} rest {it['rest']:.1f}{', above the bar' if is_above else ''}"
        print(f"  {whole:6.1f}  {owner}  {told}{'  of the code: ' + more if more else ''}")
    return is_over


def sizes(name, words):
    """Prints the megabytes of code of a crate."""
    found, parts = collections.Counter(), collections.defaultdict(collections.Counter)
    for owner, last, _, size in parts_of(written(name)):
        if last.startswith("Lts"):
            found[owner] += size / 1e6
            # of a cycle, the function
            parts[owner][last[4:]] += size / 1e6
    print(f"{name}: {sum(found.values()):.1f} MB of code in {len(found)} functions")
    for owner, size in found.most_common():
        if size < words["shown"]:
            break
        of_it = "; ".join(f"{part} {more:.1f}" for part, more in parts[owner].most_common() if part and more >= words["shown"])
        print(f"  {size:6.2f}  {owner}{'  of it: ' + of_it if of_it else ''}")
    return False


def main(words):
    by_size = "--size" in words
    given = {"shown": 1.0 if by_size else 5.0, "function": 60.0, "crate": 360.0}
    names, left = [], [it for it in words if it != "--size"]
    while left:
        word = left.pop(0)
        if not word.startswith("--"):
            names.append(word)
        elif word[2:] in given and left and re.fullmatch(r"\d+(\.\d+)?", left[0]):
            given[word[2:]] = float(left.pop(0))
        else:
            names = []
            break
    if not names:
        print(__doc__.strip(), file=sys.stderr)
        return 2
    over = [(sizes if by_size else seconds)(it, given) for it in names]
    return 1 if any(over) else 0


if __name__ == "__main__":
    sys.exit(main(sys.argv[1:]))
