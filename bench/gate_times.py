#!/usr/bin/env python3
"""Runs the gate and tells where its processor time goes, by crate: proofs, tests and must-fail edits.

usage: bench/gate_times.py [WORDS OF rt ci ..]       as: bench/gate_times.py --anew

It looks at the run's processes of the prover twice a second, and prints the minutes of processor time that each had used
when it was last seen, in a table in markdown; and how long the run took. A process that forked others counts for itself, as
they do; one that another run began counts for nothing. A proof of the crate as it stands from which its edits begin counts with them, since only edits want it. Under a kit
that keeps proofs, what earlier runs proved is not done again without --anew; under another `rt ci` takes no words.
"""
import collections
import os
import subprocess
import sys
import threading
import time

TICKS = os.sysconf("SC_CLK_TCK")
KINDS = ["proof", "tests", "edits", "programs"]


def is_below(number, run):
    """Whether the process has the run among those that began it."""
    while number not in ("0", "1"):
        if number == run:
            return True
        with open(f"/proc/{number}/stat") as file:
            number = file.read().rpartition(")")[2].split()[1]
    return False


def look(run):
    """Each process of the prover below the run: its number with its beginning, its crate, what it does, and its seconds."""
    for number in filter(str.isdigit, os.listdir("/proc")):
        try:
            with open(f"/proc/{number}/cmdline") as file:
                words = file.read().split("\0")
            if not words[0].endswith("/rattle") or words[1] not in ("check", "build") or not is_below(number, run):
                continue
            folder = os.readlink(f"/proc/{number}/cwd")
            with open(f"/proc/{number}/stat") as file:
                stat = file.read().rpartition(")")[2].split()
        except (OSError, IndexError):
            continue
        name = words[words.index("--crate-name") + 1] if "--crate-name" in words else "?"
        if "/rt-edit-" in folder:
            kind = "edits"
        elif "--test" in words:
            kind = "tests"
        elif "--crate-checked" in words:
            kind = "programs"
        else:
            kind = "proof"
        yield (number, stat[19]), name, kind, sum(map(int, stat[11:13])) / TICKS


def watch(run, used, ended):
    while not ended.wait(0.5):
        for key, name, kind, seconds in look(run):
            used[key] = name, kind, seconds


def main():
    used, ended = {}, threading.Event()
    began = time.monotonic()
    run = subprocess.Popen(["rt", "ci", *sys.argv[1:]])
    watcher = threading.Thread(target=watch, args=(str(run.pid), used, ended))
    watcher.start()
    try:
        status = run.wait()
    finally:
        ended.set()
        watcher.join()
    minutes = collections.defaultdict(lambda: dict.fromkeys(KINDS, 0.0))
    for name, kind, seconds in used.values():
        minutes[name][kind] += seconds / 60
    print(f"\n| crate | {' | '.join(KINDS)} |\n|---|{'---|' * len(KINDS)}")
    for name, row in sorted(minutes.items(), key=lambda it: -sum(it[1].values())):
        print(f"| {name} | {' | '.join(f'{row[kind]:.1f}' for kind in KINDS)} |")
    sums = {kind: sum(row[kind] for row in minutes.values()) for kind in KINDS}
    print(f"| all | {' | '.join(f'{sums[kind]:.1f}' for kind in KINDS)} |")
    print(f"\n{sum(sums.values()):.0f} processor minutes in {(time.monotonic() - began) / 60:.0f} minutes")
    sys.exit(status)


if __name__ == "__main__":
    main()
