#!/usr/bin/env python3
"""Follows the rows of boards in crates/search_rows/stdin by a plain account of a board, and tells those that it does not follow.

usage: bench/board_account.py [FILE]

The account is kept by the board's rules alone: a list of leaves by their names, what was granted, the number of events, and the best
value. Which leaf is leased is a preference, so it takes the leaf that a reply names, and judges whether it may be named; which splits are
honest and which leaves may be closed it does not judge, so it takes it that the board refuses some. Rows in which trees grow it passes over.
A row's number is that in its table.
The status is 1 where a row is not followed.
"""
import os
import sys

TOP = os.path.dirname(os.path.dirname(os.path.abspath(__file__)))
ROWS = os.path.join(TOP, "crates", "search_rows", "stdin")
MOST_GRANTED = 16


class Unfollowed(Exception):
    """A reply that is none to its event."""


def demand(holds, what):
    if not holds:
        raise Unfollowed(what)


class Account:
    """Leaves by their names: `todo`, `closed`, or the number and the grant of a lease."""

    def __init__(self, greatest, limit):
        self.better = max if greatest else min
        self.limit, self.splits, self.events, self.best = limit, 0, 0, None
        self.leaves = {".": "todo"}

    def count(self, state):
        return sum(1 for leaf in self.leaves.values() if leaf == state)

    def leased(self):
        return {leaf[0]: name for name, leaf in self.leaves.items() if isinstance(leaf, tuple)}

    def granted(self):
        return sum(leaf[1] for leaf in self.leaves.values() if isinstance(leaf, tuple))

    def value(self):
        return "-" if self.best is None else str(self.best)

    def follow(self, event, reply):
        name, *words = event.split()
        {"lease": self.lease, "offer": self.offer, "reclaim": self.reclaim}.get(name, self.graft)(name, words, reply)
        if reply != "refused":
            self.events += 1

    def lease(self, _name, _words, reply):
        first, *rest = reply.split()
        if first == "idle":
            demand(self.count("todo") == 0 and int(rest[0]) == len(self.leased()), "idle")
            return
        grant = max(0, min(MOST_GRANTED, self.limit - self.splits - self.granted()))
        demand((int(first), int(rest[0]), rest[1]) == (self.events, grant, self.value()), "the lease")
        demand(self.leaves.get(rest[2]) == "todo", "the leaf")
        self.leaves[rest[2]] = (self.events, grant)

    def offer(self, _name, words, reply):
        if words[2] == "no":
            demand(reply == "refused", "an offer that is not feasible")
            return
        value = int(words[2])
        self.best = value if self.best is None else self.better(self.best, value)
        demand(reply == self.value(), "the best value")

    def reclaim(self, _name, _words, reply):
        for name in self.leased().values():
            self.leaves[name] = "todo"
        demand(reply == "done", "reclaim")

    def graft(self, name, words, reply):
        leaf = self.leased().get(int(words[1]))
        demand(leaf is not None or reply == "refused", "a lease that is not open")
        if reply == "refused":
            return
        demand(reply == self.value(), "the best value")
        if name == "split":
            demand(self.leaves[leaf][1] > 0, "a split that is not granted")
            above = "" if leaf == "." else leaf + ","
            del self.leaves[leaf]
            for side in "<>":
                self.leaves[f"{above}{words[2]}{side}{words[3]}"] = "todo"
            self.splits += 1
        else:
            self.leaves[leaf] = "closed" if name == "close" else "todo"

    def end(self, wanted):
        words = wanted.split()
        demand(words[:3] == [str(self.splits), str(self.events), self.value()], "the account at the end")
        left = len(self.leaves) - self.count("closed")
        verdict = "infeasible" if self.best is None else "optimal"
        demand(words[3:] == [str(left), "open" if left else verdict], "the verdict")


def follow_row(model, row):
    wanted, asked = row.split(" <- ")
    limit, steps = asked.split(": ", 1)
    account = Account(model.startswith("max"), int(limit))
    for step in steps.split("; "):
        event, reply = step.split(" > ")
        try:
            account.follow(event, reply)
        except Unfollowed as fault:
            raise Unfollowed(f"{step}: {fault}") from fault
    account.end(wanted)


def main():
    path = sys.argv[1] if len(sys.argv) > 1 else ROWS
    name, kind, number, followed, failed = "", "", 0, 0, 0
    for line in open(path, encoding="utf-8").read().split("\n"):
        if line.startswith("# "):
            name, kind, number = line[2:], "", 0
        elif line.startswith("= "):
            kind = line[2:]
        elif line and not line.startswith("#:"):
            number += 1
            if not kind.startswith("board ") or "; grow " in line:
                continue
            try:
                follow_row(kind[len("board "):], line)
                followed += 1
            except (Unfollowed, ValueError, IndexError) as fault:
                failed += 1
                print(f"{name}, row {number}: {fault}")
    print(f"{followed} rows followed, {failed} not")
    return 1 if failed or not followed else 0


if __name__ == "__main__":
    sys.exit(main())
